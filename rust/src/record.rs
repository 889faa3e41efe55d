//! Records: what receive writes of each thing that happened.
use crate::settings::switch;
use crate::RECORD;
use std::iter::FusedIterator;

/// What stands in a record of a unit.
#[derive(Clone, Copy, Debug, PartialEq, Eq, Hash)]
pub struct Unit {
    /// Whole octets, check octets included.
    pub length: u16,
    /// The first five, zero filled.
    pub first: [u8; 5],
}

/// What happened.
#[derive(Clone, Copy, Debug, PartialEq, Eq, Hash)]
pub enum Kind {
    /// Kind 0: a good unit was handed over.
    HandedOver(Unit),
    /// Kind 1: a good unit was dropped as a repeat.
    Dropped(Unit),
    /// Kind 2: a good unit was lost for want of a slot.
    Lost(Unit),
    /// Kind 3: a unit's check is wrong.
    CheckWrong {
        /// The unit.
        unit: Unit,
        /// Whether it was lost for want of a slot, not handed over.
        lost: bool,
    },
    /// Kind 4: a unit was of not whole octets.
    NotWhole {
        /// Its whole octets.
        unit: Unit,
        /// Whether it was lost for want of a slot, not handed over.
        lost: bool,
    },
    /// Kind 5: a unit was short, under 40 bits.
    Short(Unit),
    /// Kind 6: a unit was long.
    Long,
    /// Kind 7: an abort.
    Abort,
    /// Kind 8: an octet tick while counting.
    Tick,
}

impl Kind {
    /// Its number, 0 to 8.
    pub const fn number(&self) -> u8 {
        match self {
            Kind::HandedOver(_) => 0,
            Kind::Dropped(_) => 1,
            Kind::Lost(_) => 2,
            Kind::CheckWrong { .. } => 3,
            Kind::NotWhole { .. } => 4,
            Kind::Short(_) => 5,
            Kind::Long => 6,
            Kind::Abort => 7,
            Kind::Tick => 8,
        }
    }

    /// The unit; kinds 6 to 8 have none.
    pub const fn unit(&self) -> Option<Unit> {
        match *self {
            Kind::HandedOver(unit) | Kind::Dropped(unit) | Kind::Lost(unit) | Kind::Short(unit) => Some(unit),
            Kind::CheckWrong { unit, .. } | Kind::NotWhole { unit, .. } => Some(unit),
            Kind::Long | Kind::Abort | Kind::Tick => None,
        }
    }

    /// The kind of a number, where lost and unit agree with it.
    fn of(number: u8, lost: bool, unit: Unit) -> Option<Kind> {
        let nothing = Unit { length: 0, first: [0; 5] };
        match (number, lost) {
            (0, false) => Some(Kind::HandedOver(unit)),
            (1, false) => Some(Kind::Dropped(unit)),
            (2, true) => Some(Kind::Lost(unit)),
            (3, lost) => Some(Kind::CheckWrong { unit, lost }),
            (4, lost) => Some(Kind::NotWhole { unit, lost }),
            (5, false) => Some(Kind::Short(unit)),
            (6, false) if unit == nothing => Some(Kind::Long),
            (7, false) if unit == nothing => Some(Kind::Abort),
            (8, false) if unit == nothing => Some(Kind::Tick),
            _ => None,
        }
    }
}

/// One record.
#[derive(Clone, Copy, Debug, PartialEq, Eq, Hash)]
pub struct Record {
    /// What happened.
    pub kind: Kind,
    /// The monitor's count after it.
    pub monitor_count: u16,
    /// The good count.
    pub good_count: u16,
    /// Whether this event raised SUER or AERM.
    pub alarm: bool,
}

impl Record {
    /// Takes a record's octets apart; none where they are no record.
    ///
    /// ```
    /// use penguinjug::{Kind, Record, Unit};
    ///
    /// let record = Record::decode(&[5, 0, 3, 0, 0, 0, 9, 0, 1, 2, 3, 0, 0, 0, 0, 0]).unwrap();
    /// assert_eq!(record.kind, Kind::Short(Unit { length: 3, first: [1, 2, 3, 0, 0] }));
    /// assert_eq!(record.good_count, 9);
    /// assert_eq!(Record::decode(&[9; 16]), None);
    /// ```
    pub fn decode(octets: &[u8; RECORD]) -> Option<Record> {
        let [kind, lost, l0, l1, m0, m1, g0, g1, first @ .., alarm, z0, z1] = *octets;
        let unit = Unit { length: u16::from_le_bytes([l0, l1]), first };
        let record = Record {
            kind: Kind::of(kind, switch(lost)?, unit)?,
            monitor_count: u16::from_le_bytes([m0, m1]),
            good_count: u16::from_le_bytes([g0, g1]),
            alarm: switch(alarm)?,
        };
        (z0 == 0 && z1 == 0).then_some(record)
    }
}

/// The records that one receive wrote, in their order.
#[derive(Clone, Debug)]
pub struct Records<'a> {
    octets: &'a [u8],
}

impl<'a> Records<'a> {
    /// The records that stand at the front of an area.
    pub(crate) fn written(area: &'a [u8], count: usize) -> Records<'a> {
        Records { octets: &area[..RECORD * count] }
    }

    /// The octets of the records that are still to come, 16 each: before the first `next`, of all that were written.
    pub fn octets(&self) -> &'a [u8] {
        self.octets
    }
}

impl Iterator for Records<'_> {
    type Item = Record;

    fn next(&mut self) -> Option<Record> {
        let (first, rest) = self.octets.split_first_chunk()?;
        self.octets = rest;
        Some(Record::decode(first).expect("the library writes records by their rules"))
    }

    fn size_hint(&self) -> (usize, Option<usize>) {
        let left = self.octets.len() / RECORD;
        (left, Some(left))
    }
}

impl ExactSizeIterator for Records<'_> {}

impl FusedIterator for Records<'_> {}

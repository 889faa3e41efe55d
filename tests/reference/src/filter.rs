//! The repeat filter, told by the good units before; and the four counts, told by the history of good units.

use crate::settings::Settings;
use crate::unit::Unit;

#[derive(Clone, Copy, Debug, PartialEq, Eq)]
pub enum Fate {
    HandedOver,
    Dropped,
    Lost,
}

/// What the history keeps of a good unit.
#[derive(Clone, Debug)]
pub struct Good {
    pub length: usize,
    pub first: [u8; 5],
    pub fate: Fate,
}

/// What the memory holds: "its length, its masked octets and whether the unit before was alike".
#[derive(Clone, Debug, Default, PartialEq, Eq)]
pub struct Memory {
    pub length: usize,
    pub octets: [u8; 5],
    pub alike: bool,
}

/// All good units since opening, and for each command 4 how many good units were before it.
#[derive(Clone, Debug, Default)]
pub struct GoodUnits {
    units: Vec<Good>,
    emptied: Vec<usize>,
}

fn masked(first: &[u8; 5], mask: &[u8; 5]) -> [u8; 5] {
    std::array::from_fn(|i| first[i] & mask[i])
}

/// "Two units are alike if they have equal length and equal first five octets under the mask."
fn alike(one: &Good, other: &Good, mask: &[u8; 5]) -> bool {
    one.length == other.length && masked(&one.first, mask) == masked(&other.first, mask)
}

/// "5 octets is fill-in, 6 or 7 link status, more is message": how many in a row before it a unit needs to be dropped.
fn needed_before(length: usize) -> Option<usize> {
    match length {
        5 => Some(1),
        6 | 7 => Some(2),
        _ => None,
    }
}

impl GoodUnits {
    /// "Predecessors are the good units directly before": the one `back` places before place `place`, if no command 4
    /// came between and it was not lost ("a lost good unit, command 4 and opening empty the memory").
    fn predecessor(&self, place: usize, back: usize) -> Option<&Good> {
        let begin = self.emptied.iter().rev().find(|before| **before <= place).copied().unwrap_or(0);
        let at = place.checked_sub(back).filter(|at| *at >= begin)?;
        (self.units[at].fate != Fate::Lost).then(|| &self.units[at])
    }

    /// The `needed` good units directly before place `place` are there, each one like `unit`.
    fn preceded_by_like(&self, place: usize, unit: &Good, needed: usize, mask: &[u8; 5]) -> bool {
        (1..=needed).all(|back| self.predecessor(place, back).is_some_and(|before| alike(before, unit, mask)))
    }

    /// "With the filter on, a fill-in unit is dropped exactly if the memory holds one like it; a link status unit needs
    /// two in a row." A message unit is never dropped, and no shorter unit is like it.
    pub fn drops(&self, unit: &Unit, settings: &Settings) -> bool {
        let good = Good { length: unit.octets.len(), first: unit.first_five(), fate: Fate::Dropped };
        let place = self.units.len();
        settings.filter
            && needed_before(good.length).is_some_and(|needed| self.preceded_by_like(place, &good, needed, &settings.mask))
    }

    pub fn append(&mut self, unit: &Unit, fate: Fate) {
        self.units.push(Good { length: unit.octets.len(), first: unit.first_five(), fate });
    }

    /// "4 next unit must be handed over (empties the filter)".
    pub fn command_4(&mut self) {
        self.emptied.push(self.units.len());
    }

    /// The memory is that of the last good unit that was not dropped, if it went to a slot, is no message unit and no
    /// command 4 came after it. "With the filter off the memory stays empty."
    pub fn memory(&self, settings: &Settings) -> Memory {
        let Some(place) = self.units.iter().rposition(|unit| unit.fate != Fate::Dropped) else { return Memory::default() };
        let unit = &self.units[place];
        let emptied_after = self.emptied.last().is_some_and(|before| *before > place);
        if !settings.filter || emptied_after || unit.fate == Fate::Lost || needed_before(unit.length).is_none() {
            return Memory::default();
        }
        let alike = self.preceded_by_like(place, unit, 1, &settings.mask);
        Memory { length: unit.length, octets: masked(&unit.first, &settings.mask), alike }
    }

    /// "the good count, 16 bits, goes round to 0 after 65,535".
    pub fn good_count(&self) -> u16 {
        (self.units.len() % 65_536) as u16
    }

    /// "Three more 16-bit counts go round likewise: good units handed over, dropped, lost."
    pub fn count(&self, fate: Fate) -> u16 {
        (self.units.iter().filter(|unit| unit.fate == fate).count() % 65_536) as u16
    }
}

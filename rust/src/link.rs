//! The link and its calls.
use crate::{ffi, raw, Command, Events, Mode, Records, Refusal, Settings};

/// One board: receiver, error monitor, repeat filter and transmitter.
///
/// A call keeps nothing of the memory that it is lent. From open to wipe a host lends the same pool, 280 octets for each slot, and the same
/// descriptors, two words for each slot: its status, then its unit's length.
///
/// A refused call changes neither the link nor any lent octet or word.
#[derive(Clone, Debug, PartialEq, Eq)]
pub struct Link {
    raw: raw::Link,
}

impl Default for Link {
    fn default() -> Link {
        Link::new()
    }
}

/// Making links.
impl Link {
    /// The new link, which is closed.
    ///
    /// ```
    /// assert!(!penguinjug::Link::new().is_open());
    /// ```
    pub fn new() -> Link {
        Link { raw: ffi::new() }
    }

    /// A link of raw parts. Calls refuse it with [`Refusal::LinkMalformed`] if it is malformed.
    ///
    /// ```
    /// use penguinjug::{Events, Link, Refusal};
    ///
    /// let new = Link::new();
    /// assert_eq!(Link::from_raw(*new.raw()), new);
    ///
    /// let mut malformed = Link::from_raw(penguinjug::raw::Link { mode: 4, ..*new.raw() });
    /// assert_eq!(malformed.clear(Events::ALL), Err(Refusal::LinkMalformed));
    /// ```
    pub const fn from_raw(raw: raw::Link) -> Link {
        Link { raw }
    }

    /// Its parts.
    pub const fn raw(&self) -> &raw::Link {
        &self.raw
    }
}

/// The calls.
impl Link {
    /// Opens a booking on a closed link, over memory that is all zero: 280K octets and 2K words. All slots are then empty, the monitor is off and all
    /// counts are zero. Refused with 1, 3, 4, 5, 6.
    ///
    /// ```
    /// use penguinjug::{Link, Refusal, Row, Settings, SLOT};
    ///
    /// let settings = Settings::row(Row::Normal, 2);
    /// let (mut pool, mut descriptors) = ([0; 2 * SLOT], [0; 4]);
    /// let mut link = Link::new();
    /// link.open(&settings, &mut pool, &mut descriptors)?;
    /// assert_eq!(link.settings(), Some(settings));
    /// assert_eq!(link.open(&settings, &mut pool, &mut descriptors), Err(Refusal::LinkOpen));
    /// # Ok::<(), Refusal>(())
    /// ```
    pub fn open(&mut self, settings: &Settings, pool: &mut [u8], descriptors: &mut [u16]) -> Result<(), Refusal> {
        self.open_raw(&settings.raw(), pool, descriptors)
    }

    /// The same with raw settings: a switch that is neither 0 nor 1 is out of range.
    ///
    /// ```
    /// use penguinjug::{raw, Link, Refusal, Row, Settings, SLOT};
    ///
    /// let settings = raw::Settings { itu: 2, ..Settings::row(Row::Normal, 1).raw() };
    /// let refused = Link::new().open_raw(&settings, &mut [0; SLOT], &mut [0; 2]);
    /// assert_eq!(refused, Err(Refusal::SettingOutOfRange));
    /// ```
    pub fn open_raw(&mut self, settings: &raw::Settings, pool: &mut [u8], descriptors: &mut [u16]) -> Result<(), Refusal> {
        let answer = ffi::open(&self.raw, settings, pool, descriptors);
        self.take(answer)
    }

    /// The wipe between bookings: zeroes all of both areas, whatever their lengths, and makes the link the new closed one. Never refused.
    ///
    /// ```
    /// use penguinjug::{Link, Refusal, Row, Settings, SLOT};
    ///
    /// let (mut pool, mut descriptors) = ([0; SLOT], [0; 2]);
    /// let mut link = Link::new();
    /// link.open(&Settings::row(Row::Normal, 1), &mut pool, &mut descriptors)?;
    /// link.wipe(&mut pool, &mut descriptors);
    /// assert_eq!(link, Link::new());
    /// assert_eq!(descriptors, [0, 0]);
    /// # Ok::<(), Refusal>(())
    /// ```
    pub fn wipe(&mut self, octets: &mut [u8], words: &mut [u16]) {
        self.raw = ffi::wipe(octets, words);
    }

    /// Takes up to 1,024 line octets in, lowest bit first, bit by bit. Units go to slots, and a record of each thing that happened goes to the front of
    /// the record area, which has 48 octets for each line octet; the rest of it is unchanged. Refused with 1, 2, 5, 7, 8.
    ///
    /// ```
    /// use penguinjug::{Kind, Link, Refusal, Row, Settings, RECORDS, SLOT};
    ///
    /// let (mut pool, mut descriptors) = ([0; SLOT], [0; 2]);
    /// let mut link = Link::new();
    /// link.open(&Settings::row(Row::Normal, 1), &mut pool, &mut descriptors)?;
    ///
    /// let mut area = [0; 2 * RECORDS];
    /// let mut records = link.receive(&[0x7e, 0xff], &mut pool, &mut descriptors, &mut area)?;
    /// assert_eq!(records.len(), 1);
    /// assert_eq!(records.next().map(|record| record.kind), Some(Kind::Abort));
    /// # Ok::<(), Refusal>(())
    /// ```
    pub fn receive<'a>(
        &mut self,
        line: &[u8],
        pool: &mut [u8],
        descriptors: &mut [u16],
        records: &'a mut [u8],
    ) -> Result<Records<'a>, Refusal> {
        let answer = ffi::receive(&self.raw, line, pool, descriptors, records);
        Ok(Records::written(records, self.take_counted(answer)?))
    }

    /// The same by whole octets: proved to give the same answer on every input, faster from about 16 octets a call on.
    ///
    /// ```
    /// use penguinjug::{Link, Refusal, Row, Settings, RECORDS, SLOT};
    ///
    /// let (mut pool, mut descriptors) = ([0; SLOT], [0; 2]);
    /// let mut link = Link::new();
    /// link.open(&Settings::row(Row::Normal, 1), &mut pool, &mut descriptors)?;
    ///
    /// let mut area = [0; 3 * RECORDS];
    /// let flags = link.receive_octets(&[0x7e; 3], &mut pool, &mut descriptors, &mut area)?;
    /// assert_eq!(flags.len(), 0);
    /// # Ok::<(), Refusal>(())
    /// ```
    pub fn receive_octets<'a>(
        &mut self,
        line: &[u8],
        pool: &mut [u8],
        descriptors: &mut [u16],
        records: &'a mut [u8],
    ) -> Result<Records<'a>, Refusal> {
        let answer = ffi::receive_octets(&self.raw, line, pool, descriptors, records);
        Ok(Records::written(records, self.take_counted(answer)?))
    }

    /// A command. Refused with 1, 2.
    ///
    /// ```
    /// use penguinjug::{Command, Link, Mode, Refusal, Row, Settings, SLOT};
    ///
    /// let mut link = Link::new();
    /// link.open(&Settings::row(Row::Normal, 1), &mut [0; SLOT], &mut [0; 2])?;
    /// link.command(Command::StartFailure)?;
    /// assert_eq!(link.mode(), Some(Mode::Failure));
    /// # Ok::<(), Refusal>(())
    /// ```
    pub fn command(&mut self, command: Command) -> Result<(), Refusal> {
        self.command_number(command.number())
    }

    /// A command by its number. Refused with 1, 2, 11.
    pub fn command_number(&mut self, command: u16) -> Result<(), Refusal> {
        let answer = ffi::command(&self.raw, command);
        self.take(answer)
    }

    /// Clears the chosen event bits; bits that are not set are no fault. Refused with 1, 2.
    ///
    /// ```
    /// use penguinjug::{Events, Link, Refusal, Row, Settings, OUTPUT, SLOT};
    ///
    /// let mut link = Link::new();
    /// link.open(&Settings::row(Row::Normal, 1), &mut [0; SLOT], &mut [0; 2])?;
    /// link.send(&[1, 2, 3], &mut [0; OUTPUT])?;
    /// assert_eq!(link.events(), Events::SENT);
    /// link.clear(Events::SENT | Events::FILL)?;
    /// assert!(link.events().is_empty());
    /// # Ok::<(), Refusal>(())
    /// ```
    pub fn clear(&mut self, chosen: Events) -> Result<(), Refusal> {
        let answer = ffi::clear(&self.raw, chosen.bits());
        self.take(answer)
    }

    /// Sends 3 to 276 octets of content with their check octets as a unit, a flag behind it and, at the first output of a booking, a flag before it.
    /// Whole octets go to the front of the output area, of 336 octets or more, and are given back; the rest of it is unchanged, and up to seven bits wait
    /// in the link. Refused with 1, 2, 9, 10.
    ///
    /// ```
    /// use penguinjug::{Link, Refusal, Row, Settings, OUTPUT, SLOT};
    ///
    /// let mut link = Link::new();
    /// link.open(&Settings::row(Row::Normal, 1), &mut [0; SLOT], &mut [0; 2])?;
    /// let mut output = [0; OUTPUT];
    /// assert_eq!(link.send(&[0x1f, 2, 3], &mut output)?, [0x7e, 0x1f, 0x04, 0x06, 0x6a, 0x11, 0xfc]);
    /// # Ok::<(), Refusal>(())
    /// ```
    pub fn send<'a>(&mut self, content: &[u8], output: &'a mut [u8]) -> Result<&'a [u8], Refusal> {
        let answer = ffi::send(&self.raw, content, output);
        Ok(&output[..self.take_counted(answer)?])
    }

    /// Sends the fill-in unit of the last content sent; before any content, one flag. What is written and given back is as in [`Link::send`].
    /// Refused with 1, 2, 9.
    ///
    /// ```
    /// use penguinjug::{Link, Refusal, Row, Settings, OUTPUT, SLOT};
    ///
    /// let mut link = Link::new();
    /// link.open(&Settings::row(Row::Normal, 1), &mut [0; SLOT], &mut [0; 2])?;
    /// assert_eq!(link.fill(&mut [0; OUTPUT])?, [0x7e]);
    /// # Ok::<(), Refusal>(())
    /// ```
    pub fn fill<'a>(&mut self, output: &'a mut [u8]) -> Result<&'a [u8], Refusal> {
        let answer = ffi::fill(&self.raw, output);
        Ok(&output[..self.take_counted(answer)?])
    }

    /// What [`Link::read`] and [`Link::hand_back`] would answer, without the unit.
    pub fn read_number(&self, pool: &[u8], descriptors: &[u16], slot: u16) -> Result<(), Refusal> {
        Refusal::check(ffi::read_number(&self.raw, pool, descriptors, slot))
    }

    /// The unit in a slot, check octets included, as a part of the pool. Refused with 1, 2, 5, 12, 13.
    ///
    /// ```
    /// use penguinjug::{Link, Refusal, Row, Settings, RECORDS, SLOT};
    ///
    /// let (mut pool, mut descriptors) = ([0; SLOT], [0; 2]);
    /// let mut link = Link::new();
    /// link.open(&Settings::row(Row::Normal, 1), &mut pool, &mut descriptors)?;
    /// assert_eq!(link.read(&pool, &descriptors, 0), Err(Refusal::SlotNotFilled));
    ///
    /// let fill_in = [0x7e, 0, 0, 0, 0xcc, 0xc6, 0x7e];
    /// link.receive(&fill_in, &mut pool, &mut descriptors, &mut [0; 7 * RECORDS])?;
    /// assert_eq!(link.read(&pool, &descriptors, 0)?, [0, 0, 0, 0xcc, 0xc6]);
    /// # Ok::<(), Refusal>(())
    /// ```
    pub fn read<'a>(&self, pool: &'a [u8], descriptors: &[u16], slot: u16) -> Result<&'a [u8], Refusal> {
        let part = ffi::read(&self.raw, pool, descriptors, slot);
        Refusal::check(part.number)?;
        Ok(&pool[part.offset..][..part.length])
    }

    /// Gives a slot back: its octets and length zero, its status empty. Refused with 1, 2, 5, 12, 13.
    ///
    /// ```
    /// use penguinjug::{Link, Refusal, Row, Settings, Status, RECORDS, SLOT};
    ///
    /// let (mut pool, mut descriptors) = ([0; SLOT], [0; 2]);
    /// let mut link = Link::new();
    /// link.open(&Settings::row(Row::Normal, 1), &mut pool, &mut descriptors)?;
    /// let fill_in = [0x7e, 0, 0, 0, 0xcc, 0xc6, 0x7e];
    /// link.receive(&fill_in, &mut pool, &mut descriptors, &mut [0; 7 * RECORDS])?;
    /// link.hand_back(&mut pool, &mut descriptors, 0)?;
    /// assert_eq!(descriptors, [Status::Empty.number(), 0]);
    /// assert_eq!(pool, [0; SLOT]);
    /// # Ok::<(), Refusal>(())
    /// ```
    pub fn hand_back(&mut self, pool: &mut [u8], descriptors: &mut [u16], slot: u16) -> Result<(), Refusal> {
        let answer = ffi::hand_back(&self.raw, pool, descriptors, slot);
        self.take(answer)
    }

    fn take(&mut self, answer: ffi::Answer) -> Result<(), Refusal> {
        self.raw = answer.link;
        Refusal::check(answer.number)
    }

    fn take_counted(&mut self, answer: ffi::Counted) -> Result<usize, Refusal> {
        self.raw = answer.link;
        Refusal::check(answer.number)?;
        Ok(answer.count)
    }
}

/// What the link holds. These look at nothing else, so of a malformed link they say what stands in it.
impl Link {
    /// Whether a booking is open.
    pub const fn is_open(&self) -> bool {
        self.raw.opened == 1
    }

    /// The settings of the booking. None when closed, or where a switch is neither 0 nor 1.
    pub fn settings(&self) -> Option<Settings> {
        Settings::from_raw(&self.raw.settings).filter(|_| self.is_open())
    }

    /// The counts of good units.
    pub const fn counts(&self) -> raw::Counts {
        self.raw.counts
    }

    /// The event bits that are set.
    pub const fn events(&self) -> Events {
        Events::from_bits(self.raw.events)
    }

    /// The monitor's mode. None where the octet that says it is above 3.
    pub const fn mode(&self) -> Option<Mode> {
        Mode::from_number(self.raw.mode)
    }

    /// The monitor's count.
    pub const fn monitor_count(&self) -> u16 {
        self.raw.monitor.count
    }

    /// The slot that the next unit goes to.
    pub const fn next_slot(&self) -> u16 {
        self.raw.next
    }
}

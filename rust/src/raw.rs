//! The link and its parts as the C header `penguinjug.h` has them, field by field.
//!
//! Every field is an integer, so every bit pattern is a valid value, and no call of the library asks that a value is right: it answers one that is
//! not right with a refusal. So any of these can be made freely. What the fields of a well-formed link hold is said beside them.

/// What a booking says. A switch is 0, off, or 1, on.
#[repr(C)]
#[derive(Clone, Copy, Debug, PartialEq, Eq)]
pub struct Settings {
    /// Slots, 1 to 16.
    pub k: u16,
    /// Longest unit, 7 to 278 octets, check octets included.
    pub m: u16,
    /// Octets of an octet tick, 1 to 1,024.
    pub n: u16,
    /// Threshold of the failure monitor, 1 to 1,024.
    pub t: u16,
    /// Its decay, 1 to 1,024: each D-th event lowers the count.
    pub d: u16,
    /// Threshold of the alignment monitor, 1 to 1,024.
    pub a: u16,
    /// A one: this bit of a unit's first five octets is compared by the filter.
    pub mask: [u8; 5],
    /// Switch: repeats are dropped.
    pub filter: u8,
    /// Switch: a long unit or an abort begins octet counting.
    pub itu: u8,
    /// Switch: a lost unit begins octet counting.
    pub orn: u8,
}

/// Good units, and of those the units handed over, dropped and lost. Each goes round to 0 after 65,535.
#[repr(C)]
#[derive(Clone, Copy, Debug, PartialEq, Eq)]
pub struct Counts {
    /// Good units.
    pub good: u16,
    /// Good units handed over.
    pub over: u16,
    /// Good units dropped as repeats.
    pub dropped: u16,
    /// Good units lost for want of a slot.
    pub lost: u16,
}

/// The monitor's count and event number.
#[repr(C)]
#[derive(Clone, Copy, Debug, PartialEq, Eq)]
pub struct Monitor {
    /// The count that is held against the threshold.
    pub count: u16,
    /// Events since the last decay point.
    pub number: u16,
}

/// What the filter remembers.
#[repr(C)]
#[derive(Clone, Copy, Debug, PartialEq, Eq)]
pub struct Memory {
    /// The unit's length, 0 for none.
    pub length: u16,
    /// Its first octets under the mask.
    pub octets: [u8; 5],
    /// Whether the unit before it was like it: 0 or 1.
    pub alike: u8,
}

/// The receiver.
#[repr(C)]
#[derive(Clone, Copy, Debug, PartialEq, Eq)]
pub struct Line {
    /// How many bits are gathered.
    pub bits: u16,
    /// The run of ones, 0 to 7.
    pub run: u8,
    /// Whether it hunts for a flag: 0 or 1.
    pub hunting: u8,
}

/// The sender between calls.
#[repr(C)]
#[derive(Clone, Copy, Debug, PartialEq, Eq)]
pub struct Transmitter {
    /// Whether a flag has gone: 0 or 1.
    pub flagged: u8,
    /// How many bits wait, 0 to 7.
    pub count: u8,
    /// The octet that holds them.
    pub wait: u8,
    /// Whether content was sent: 0 or 1.
    pub sent: u8,
    /// The first two octets of the last content.
    pub last: [u8; 2],
}

/// The link: 338 octets, none of them padding. A host may read every field and need write none.
#[repr(C)]
#[derive(Clone, Copy, Debug, PartialEq, Eq)]
pub struct Link {
    /// The settings of the booking.
    pub settings: Settings,
    /// The four counts of good units.
    pub counts: Counts,
    /// The monitor's numbers.
    pub monitor: Monitor,
    /// Event bits.
    pub events: u16,
    /// The slot that the next unit goes to.
    pub next: u16,
    /// N's counter.
    pub left: u16,
    /// What the filter remembers.
    pub memory: Memory,
    /// The receiver.
    pub line: Line,
    /// The sender.
    pub transmitter: Transmitter,
    /// Whether a booking is open: 0 or 1.
    pub opened: u8,
    /// Whether octets are counted: 0 or 1.
    pub counting: u8,
    /// The monitor's mode, 0 to 3.
    pub mode: u8,
    /// The gathered bits.
    pub area: [u8; 279],
}

/// The numbers of a row of settings.
#[repr(C)]
#[derive(Clone, Copy, Debug, PartialEq, Eq)]
pub struct Row {
    /// Longest unit.
    pub m: u16,
    /// Octets of an octet tick.
    pub n: u16,
    /// Threshold of the failure monitor.
    pub t: u16,
    /// Its decay.
    pub d: u16,
    /// Threshold of the alignment monitor.
    pub a: u16,
}

/// A least and a most.
#[repr(C)]
#[derive(Clone, Copy, Debug, PartialEq, Eq)]
pub struct Range {
    /// The least that is allowed.
    pub least: usize,
    /// The most that is allowed.
    pub most: usize,
}

/// Sizes in octets, and the limits of the settings.
#[repr(C)]
#[derive(Clone, Copy, Debug, PartialEq, Eq)]
pub struct Sizes {
    /// A slot of the pool.
    pub slot: usize,
    /// K.
    pub slots: Range,
    /// M.
    pub longest: Range,
    /// N, T, D and A.
    pub counts: Range,
    /// Most line octets of one receive.
    pub line: usize,
    /// A record.
    pub record: usize,
    /// Room for the records of one line octet.
    pub records: usize,
    /// An output area, at least.
    pub output: usize,
    /// Content of a send.
    pub content: Range,
}

/// The statuses of a slot.
#[repr(C)]
#[derive(Clone, Copy, Debug, PartialEq, Eq)]
pub struct Statuses {
    /// The slot is empty.
    pub empty: u16,
    /// It holds a good unit.
    pub good: u16,
    /// It holds a unit whose check is wrong.
    pub check_wrong: u16,
    /// It holds a unit of not whole octets.
    pub not_whole: u16,
}

/// The event bits, each with a one in its place.
#[repr(C)]
#[derive(Clone, Copy, Debug, PartialEq, Eq)]
pub struct Events {
    /// A unit was handed over.
    pub over: u16,
    /// BSY.
    pub busy: u16,
    /// The failure monitor's alarm.
    pub suer: u16,
    /// The alignment monitor's alarm.
    pub aerm: u16,
    /// OCT.
    pub octet: u16,
    /// An abort.
    pub abort: u16,
    /// A long unit.
    pub long_unit: u16,
    /// Content was sent.
    pub sent: u16,
    /// A fill-in unit was sent.
    pub fill: u16,
}

/// The constants of the header as the library has them.
#[repr(C)]
#[derive(Clone, Copy, Debug, PartialEq, Eq)]
pub struct Limits {
    /// Sizes and limits.
    pub sizes: Sizes,
    /// Statuses.
    pub statuses: Statuses,
    /// Event bits.
    pub events: Events,
}

//! The refusals.
use std::error::Error;
use std::fmt;

/// Why a call was refused. A refused call changes neither the link nor any lent octet or word. Faults are looked for in rising number.
///
/// ```
/// use penguinjug::{Command, Link, Refusal};
///
/// let refusal = Link::new().command(Command::StartFailure).unwrap_err();
/// assert_eq!(refusal, Refusal::LinkClosed);
/// assert_eq!(refusal.number(), 2);
/// assert_eq!(refusal.to_string(), "link closed");
/// ```
#[repr(u8)]
#[derive(Clone, Copy, Debug, PartialEq, Eq, Hash)]
pub enum Refusal {
    /// All calls but wipe: only a link made from raw parts can be malformed.
    LinkMalformed = 1,
    /// All calls but open and wipe.
    LinkClosed = 2,
    /// Open.
    LinkOpen = 3,
    /// Open.
    SettingOutOfRange = 4,
    /// Open, receive, read and hand back: the pool is not exactly 280K octets or the descriptors are not 2K words.
    MemorySize = 5,
    /// Open: a pool octet or a descriptor word is not zero.
    MemoryNotZero = 6,
    /// Receive: more than 1,024 line octets.
    LineTooLong = 7,
    /// Receive: a record area under 48 octets for each line octet.
    RecordsTooSmall = 8,
    /// Send and fill: an output area under 336 octets.
    OutputTooSmall = 9,
    /// Send: content of under 3 or over 276 octets.
    ContentLength = 10,
    /// A command number that is none.
    CommandUnknown = 11,
    /// Read and hand back: a slot number of K or more.
    NoSuchSlot = 12,
    /// Read and hand back: a status that is not 0, 1 or 2, as that of an empty slot, or a length over 278.
    SlotNotFilled = 13,
}

impl Refusal {
    /// All refusals, in rising number.
    pub const ALL: [Refusal; 13] = [
        Refusal::LinkMalformed,
        Refusal::LinkClosed,
        Refusal::LinkOpen,
        Refusal::SettingOutOfRange,
        Refusal::MemorySize,
        Refusal::MemoryNotZero,
        Refusal::LineTooLong,
        Refusal::RecordsTooSmall,
        Refusal::OutputTooSmall,
        Refusal::ContentLength,
        Refusal::CommandUnknown,
        Refusal::NoSuchSlot,
        Refusal::SlotNotFilled,
    ];

    /// Its number, 1 to 13.
    pub const fn number(self) -> u8 {
        self as u8
    }

    /// The refusal of a number; none has 0, which is success, or one above 13.
    pub fn from_number(number: u8) -> Option<Refusal> {
        Refusal::ALL.into_iter().find(|refusal| refusal.number() == number)
    }

    /// What a number that the library answered says.
    pub(crate) fn check(number: u8) -> Result<(), Refusal> {
        match number {
            0 => Ok(()),
            _ => Err(Refusal::from_number(number).expect("the library answers 0 to 13")),
        }
    }
}

impl fmt::Display for Refusal {
    fn fmt(&self, f: &mut fmt::Formatter<'_>) -> fmt::Result {
        f.write_str(match self {
            Refusal::LinkMalformed => "link malformed",
            Refusal::LinkClosed => "link closed",
            Refusal::LinkOpen => "link already open",
            Refusal::SettingOutOfRange => "a setting out of range",
            Refusal::MemorySize => "pool not exactly 280K octets or descriptors not 2K words",
            Refusal::MemoryNotZero => "a pool octet or descriptor word not zero",
            Refusal::LineTooLong => "more than 1,024 line octets",
            Refusal::RecordsTooSmall => "record area under 48 octets for each line octet",
            Refusal::OutputTooSmall => "output area under 336 octets",
            Refusal::ContentLength => "content not 3 to 276 octets",
            Refusal::CommandUnknown => "command unknown",
            Refusal::NoSuchSlot => "slot number K or more",
            Refusal::SlotNotFilled => "status not 0, 1 or 2, or length over 278",
        })
    }
}

impl Error for Refusal {}

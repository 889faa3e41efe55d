//! The event bits.
use std::fmt;
use std::ops::{BitOr, BitOrAssign};

/// A set of event bits. The link keeps each until it is cleared.
///
/// ```
/// use penguinjug::Events;
///
/// let alarms = Events::SUER | Events::AERM;
/// assert!(alarms.contains(Events::SUER));
/// assert!(!alarms.contains(Events::SUER | Events::ABORT));
/// assert_eq!(alarms.bits(), 12);
/// assert_eq!(format!("{alarms:?}"), "Events(SUER | AERM)");
/// ```
#[derive(Clone, Copy, Default, PartialEq, Eq, Hash)]
pub struct Events(u16);

impl Events {
    /// A unit was handed over, also an errored one.
    pub const OVER: Events = Events(1);
    /// BSY: a unit was lost, since the next slot was not empty.
    pub const BUSY: Events = Events(2);
    /// The failure monitor's alarm.
    pub const SUER: Events = Events(4);
    /// The alignment monitor's alarm.
    pub const AERM: Events = Events(8);
    /// OCT: an octet tick in octet counting.
    pub const OCTET: Events = Events(16);
    /// An abort was found.
    pub const ABORT: Events = Events(32);
    /// A long unit was found.
    pub const LONG: Events = Events(64);
    /// Content was sent.
    pub const SENT: Events = Events(128);
    /// A fill-in unit was sent.
    pub const FILL: Events = Events(256);
    /// Every bit that has a name.
    pub const ALL: Events = Events(511);

    const NAMES: [(Events, &'static str); 9] = [
        (Events::OVER, "OVER"),
        (Events::BUSY, "BUSY"),
        (Events::SUER, "SUER"),
        (Events::AERM, "AERM"),
        (Events::OCTET, "OCTET"),
        (Events::ABORT, "ABORT"),
        (Events::LONG, "LONG"),
        (Events::SENT, "SENT"),
        (Events::FILL, "FILL"),
    ];

    /// The set of a word's ones, also of those that have no name.
    pub const fn from_bits(bits: u16) -> Events {
        Events(bits)
    }

    /// The word.
    pub const fn bits(self) -> u16 {
        self.0
    }

    /// Whether no bit is set.
    pub const fn is_empty(self) -> bool {
        self.0 == 0
    }

    /// Whether every bit of `other` is set here too.
    pub const fn contains(self, other: Events) -> bool {
        self.0 & other.0 == other.0
    }
}

impl BitOr for Events {
    type Output = Events;

    fn bitor(self, other: Events) -> Events {
        Events(self.0 | other.0)
    }
}

impl BitOrAssign for Events {
    fn bitor_assign(&mut self, other: Events) {
        self.0 |= other.0;
    }
}

impl fmt::Debug for Events {
    fn fmt(&self, f: &mut fmt::Formatter<'_>) -> fmt::Result {
        let named = Events::NAMES.iter().filter(|(bit, _)| self.contains(*bit)).map(|(_, name)| name.to_string());
        let nameless = self.0 & !Events::ALL.0;
        let rest = (nameless != 0).then(|| format!("{nameless:#06x}"));
        write!(f, "Events({})", named.chain(rest).collect::<Vec<_>>().join(" | "))
    }
}

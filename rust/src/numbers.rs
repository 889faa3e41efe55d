//! Commands, modes and statuses, each with its number.

/// What `Link::command` takes.
#[repr(u16)]
#[derive(Clone, Copy, Debug, PartialEq, Eq, Hash)]
pub enum Command {
    /// The monitor is off; its counts stay.
    MonitorOff = 1,
    /// SUERM: starts the failure monitor, both counts zero.
    StartFailure = 2,
    /// AERM: starts the alignment monitor, both counts zero.
    StartAlignment = 3,
    /// The next unit must be handed over: empties the filter's memory.
    MustHandOver = 4,
    /// Enters octet counting.
    CountOctets = 5,
}

impl Command {
    /// Its number, 1 to 5.
    pub const fn number(self) -> u16 {
        self as u16
    }

    /// The command of a number.
    ///
    /// ```
    /// use penguinjug::Command;
    ///
    /// assert_eq!(Command::from_number(3), Some(Command::StartAlignment));
    /// assert_eq!(Command::from_number(0), None);
    /// ```
    pub const fn from_number(number: u16) -> Option<Command> {
        match number {
            1 => Some(Command::MonitorOff),
            2 => Some(Command::StartFailure),
            3 => Some(Command::StartAlignment),
            4 => Some(Command::MustHandOver),
            5 => Some(Command::CountOctets),
            _ => None,
        }
    }
}

/// What the monitor does.
#[repr(u8)]
#[derive(Clone, Copy, Debug, PartialEq, Eq, Hash)]
pub enum Mode {
    /// It counts nothing.
    Off = 0,
    /// SUERM: the failure monitor counts.
    Failure = 1,
    /// AERM: the alignment monitor counts.
    Alignment = 2,
    /// Where an alarm leaves it: it counts nothing.
    Idle = 3,
}

impl Mode {
    /// Its number, 0 to 3.
    pub const fn number(self) -> u8 {
        self as u8
    }

    /// The mode of a number.
    ///
    /// ```
    /// use penguinjug::Mode;
    ///
    /// assert_eq!(Mode::from_number(3), Some(Mode::Idle));
    /// assert_eq!(Mode::from_number(4), None);
    /// ```
    pub const fn from_number(number: u8) -> Option<Mode> {
        match number {
            0 => Some(Mode::Off),
            1 => Some(Mode::Failure),
            2 => Some(Mode::Alignment),
            3 => Some(Mode::Idle),
            _ => None,
        }
    }
}

/// The status of a slot, the first of the two words of its descriptor; the second is the unit's length.
#[repr(u16)]
#[derive(Clone, Copy, Debug, PartialEq, Eq, Hash)]
pub enum Status {
    /// The slot holds no unit.
    Empty = 32768,
    /// It holds a good unit.
    Good = 0,
    /// It holds a unit whose check is wrong.
    CheckWrong = 1,
    /// It holds the whole octets of a unit of not whole octets.
    NotWhole = 2,
}

impl Status {
    /// Its number.
    pub const fn number(self) -> u16 {
        self as u16
    }

    /// The status of a number.
    ///
    /// ```
    /// use penguinjug::Status;
    ///
    /// assert_eq!(Status::from_number(32768), Some(Status::Empty));
    /// assert_eq!(Status::from_number(3), None);
    /// ```
    pub const fn from_number(number: u16) -> Option<Status> {
        match number {
            32768 => Some(Status::Empty),
            0 => Some(Status::Good),
            1 => Some(Status::CheckWrong),
            2 => Some(Status::NotWhole),
            _ => None,
        }
    }
}

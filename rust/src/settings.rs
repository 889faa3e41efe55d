//! The settings of a booking.
use crate::{ffi, raw};

/// What a booking says. Open refuses numbers out of their range.
///
/// ```
/// use penguinjug::{Row, Settings};
///
/// let settings = Settings { filter: true, ..Settings::row(Row::Normal, 4) };
/// assert_eq!((settings.m, settings.n, settings.t, settings.d, settings.a), (278, 16, 64, 256, 4));
/// assert_eq!(settings.mask, [255; 5]);
/// ```
#[derive(Clone, Copy, Debug, PartialEq, Eq, Hash)]
pub struct Settings {
    /// Slots, 1 to 16.
    pub k: u16,
    /// Longest unit, 7 to 278 octets, check octets included.
    pub m: u16,
    /// Octets of an octet tick, 1 to 1,024.
    pub n: u16,
    /// Threshold of the failure monitor, 1 to 1,024.
    pub t: u16,
    /// Its decay, 1 to 1,024: each D-th event lowers the count.
    pub d: u16,
    /// Threshold of the alignment monitor, 1 to 1,024.
    pub a: u16,
    /// A one: this bit of a unit's first five octets is compared by the filter.
    pub mask: [u8; 5],
    /// Repeats are dropped.
    pub filter: bool,
    /// A long unit or an abort begins octet counting.
    pub itu: bool,
    /// A lost unit begins octet counting.
    pub orn: bool,
}

impl Settings {
    /// The numbers of a row with `k` slots, the mask all ones and the switches off.
    pub fn row(row: Row, k: u16) -> Settings {
        let raw::Row { m, n, t, d, a } = row_numbers(row.number());
        Settings { k, m, n, t, d, a, mask: [255; 5], filter: false, itu: false, orn: false }
    }

    /// The same as the library takes them.
    pub fn raw(&self) -> raw::Settings {
        let Settings { k, m, n, t, d, a, mask, filter, itu, orn } = *self;
        raw::Settings { k, m, n, t, d, a, mask, filter: filter.into(), itu: itu.into(), orn: orn.into() }
    }

    /// The settings that the library has; none where a switch is neither 0 nor 1.
    pub fn from_raw(settings: &raw::Settings) -> Option<Settings> {
        let raw::Settings { k, m, n, t, d, a, mask, filter, itu, orn } = *settings;
        Some(Settings { k, m, n, t, d, a, mask, filter: switch(filter)?, itu: switch(itu)?, orn: switch(orn)? })
    }
}

/// An octet that is 0, off, or 1, on.
pub(crate) fn switch(octet: u8) -> Option<bool> {
    match octet {
        0 => Some(false),
        1 => Some(true),
        _ => None,
    }
}

/// The rows of numbers ready for use.
#[repr(u16)]
#[derive(Clone, Copy, Debug, PartialEq, Eq, Hash)]
pub enum Row {
    /// Row 1.
    Normal = 1,
    /// Row 2.
    Emergency = 2,
    /// Row 3.
    ShortNormal = 3,
    /// Row 4.
    ShortEmergency = 4,
}

impl Row {
    /// Its number, 1 to 4.
    pub const fn number(self) -> u16 {
        self as u16
    }
}

/// The numbers of a row, 1 to 4. Any other row gives numbers that open refuses with 4.
///
/// ```
/// assert_eq!(penguinjug::row_numbers(2).a, 1);
/// ```
pub fn row_numbers(row: u16) -> raw::Row {
    ffi::row(row)
}

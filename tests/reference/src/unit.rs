//! What a closed unit is: short, not whole octets, check wrong or good.

use crate::check;
use crate::line::octets_of;

#[derive(Clone, Copy, Debug, PartialEq, Eq)]
pub enum Quality {
    Short,
    NotWhole,
    CheckWrong,
    Good,
}

#[derive(Clone, Debug, PartialEq, Eq)]
pub struct Unit {
    pub quality: Quality,
    /// "only its whole octets are kept"; check octets included.
    pub octets: Vec<u8>,
}

impl Unit {
    /// "A closed unit of 1 to 39 bits is short ... Otherwise: not whole octets, then check wrong, then good."
    pub fn of(bits: &[bool]) -> Unit {
        let octets = octets_of(&bits[..bits.len() / 8 * 8]);
        let quality = if bits.len() <= 39 {
            Quality::Short
        } else if !bits.len().is_multiple_of(8) {
            Quality::NotWhole
        } else if !check::is_right(&octets) {
            Quality::CheckWrong
        } else {
            Quality::Good
        };
        Unit { quality, octets }
    }

    pub fn is_good(&self) -> bool {
        self.quality == Quality::Good
    }

    /// "first five octets, zero filled".
    pub fn first_five(&self) -> [u8; 5] {
        std::array::from_fn(|i| self.octets.get(i).copied().unwrap_or(0))
    }

    /// "Status ... 0 = good unit, 1 = check wrong, 2 = not whole octets"; a short unit never comes to a slot.
    pub fn status(&self) -> u16 {
        match self.quality {
            Quality::Good => 0,
            Quality::CheckWrong => 1,
            Quality::NotWhole | Quality::Short => 2,
        }
    }
}

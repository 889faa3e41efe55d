//! Octet counting and N's counter.

/// Each happening that began (true) or ended (false) octet counting, since opening.
#[derive(Clone, Debug, Default)]
pub struct OctetCounting {
    turns: Vec<bool>,
}

impl OctetCounting {
    /// "begins at a long unit or an abort (itu on), at a lost unit (orn on), or on command".
    pub fn begins(&mut self) {
        self.turns.push(true);
    }

    /// "A good unit ends octet counting".
    pub fn ends(&mut self) {
        self.turns.push(false);
    }

    /// It is on exactly if the last of these happenings began it.
    pub fn is_on(&self) -> bool {
        self.turns.last() == Some(&true)
    }
}

/// "The counter runs at all times from N downward, once for each line octet": what it stands at after so many octets.
pub fn left(n: usize, octets: usize) -> usize {
    n - octets % n
}

/// "At zero it reloads": it was at zero after the last of so many octets.
pub fn reaches_zero(n: usize, octets: usize) -> bool {
    octets.is_multiple_of(n)
}

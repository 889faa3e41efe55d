//! From line bits to units: all line bits since opening, and what stands in them.

/// What eight bits in a row on the line may be: a zero and six ones, then a zero or one more one.
#[derive(Clone, Copy, Debug, PartialEq, Eq)]
pub enum Sign {
    Flag,
    Abort,
}

/// What the line brings, with the place of the bit at which it is known.
#[derive(Clone, Debug, PartialEq, Eq)]
pub struct Finding {
    pub at: usize,
    pub what: Found,
}

#[derive(Clone, Debug, PartialEq, Eq)]
pub enum Found {
    /// A closed unit that is not empty: its bits without those of the flag.
    Closed(Vec<bool>),
    Long,
    Abort,
}

/// The line since opening. `signs` is derived from `bits`: every place where a flag or an abort ends.
#[derive(Clone, Debug, Default)]
pub struct Line {
    bits: Vec<bool>,
    signs: Vec<(usize, Sign)>,
}

/// "after R = 6 it ends a flag"; "when it goes from 6 to 7 that is an abort". R is 6 exactly after a zero and six ones:
/// the ones that a new link's R = 7 stands for have no zero before them.
fn sign_at(bits: &[bool], at: usize) -> Option<Sign> {
    let zero = at.checked_sub(7)?;
    let six_ones = !bits[zero] && bits[zero + 1..at].iter().all(|bit| *bit);
    six_ones.then_some(if bits[at] { Sign::Abort } else { Sign::Flag })
}

/// "A zero: after R = 5 it is removed". R is 5 exactly after a zero and five ones.
fn is_removed(bits: &[bool], at: usize) -> bool {
    at >= 6 && !bits[at] && !bits[at - 6] && bits[at - 5..at].iter().all(|bit| *bit)
}

impl Line {
    pub fn octets(&self) -> usize {
        self.bits.len() / 8
    }

    /// "Each line octet is eight bits, lowest first."
    pub fn append(&mut self, octets: &[u8]) {
        let known = self.bits.len();
        self.bits.extend(octets.iter().flat_map(|octet| (0..8).map(move |i| octet >> i & 1 == 1)));
        let bits = &self.bits;
        self.signs.extend((known..bits.len()).filter_map(|at| Some((at, sign_at(bits, at)?))));
    }

    /// The place where the sign after the one numbered `sign` ends, or the line's end if there is none yet.
    fn end_after(&self, sign: usize) -> usize {
        self.signs.get(sign + 1).map_or(self.bits.len(), |(at, _)| *at)
    }

    /// The places of the bits gathered by the unit that the flag numbered `flag` opens, up to the next flag or abort:
    /// all but the removed zeros. No more are looked for than make a unit long.
    fn gathered_places(&self, flag: usize, longest: usize) -> Vec<usize> {
        let opened = self.signs[flag].0;
        (opened + 1..self.end_after(flag)).filter(|at| !is_removed(&self.bits, *at)).take(8 * longest + 8).collect()
    }

    fn bits_at(&self, places: &[usize]) -> Vec<bool> {
        places.iter().map(|at| self.bits[*at]).collect()
    }

    /// What becomes of the unit that the flag numbered `flag` opens ("always opens the next"), unless an abort ends it.
    fn unit_of(&self, flag: usize, longest: usize) -> Option<Finding> {
        let places = self.gathered_places(flag, longest);
        // "When the gathered bits exceed 8M + 7 the unit is long: dropped, hunting."
        if places.len() > 8 * longest + 7 {
            return Some(Finding { at: places[8 * longest + 7], what: Found::Long });
        }
        // "A flag closes the unit if one is open".
        let (closed, _) = self.signs.get(flag + 1).filter(|(_, sign)| *sign == Sign::Flag)?;
        // "The last seven gathered bits belong to the flag; if only those or fewer were gathered, the unit is empty."
        let own = places.len().checked_sub(7).filter(|own| *own > 0)?;
        Some(Finding { at: *closed, what: Found::Closed(self.bits_at(&places[..own])) })
    }

    /// Everything that becomes known at the bits from the place `from` on, in the order on the line.
    pub fn findings_from(&self, from: usize, longest: usize) -> Vec<Finding> {
        // The unit of the last sign before `from` may become long or be closed at `from` or after it; earlier ones are over.
        let first = self.signs.partition_point(|(at, _)| *at < from).saturating_sub(1);
        let mut findings = Vec::new();
        for number in first..self.signs.len() {
            match self.signs[number] {
                // "This also counts while hunting."
                (at, Sign::Abort) => findings.push(Finding { at, what: Found::Abort }),
                (_, Sign::Flag) => findings.extend(self.unit_of(number, longest)),
            }
        }
        findings.retain(|finding| finding.at >= from);
        findings.sort_by_key(|finding| finding.at);
        findings
    }

    /// "R is the run of ones so far, 0 to 7; a new link has R = 7": the ones since the last zero, 7 if there was none.
    pub fn run(&self) -> usize {
        let ones = self.bits.iter().rev().take(7).take_while(|bit| **bit).count();
        if ones == self.bits.len() {
            7
        } else {
            ones
        }
    }

    /// The gathered bits if a unit is open: the last sign is a flag and the unit is not long. `None` is hunting.
    pub fn gathered(&self, longest: usize) -> Option<Vec<bool>> {
        let last = self.signs.len().checked_sub(1).filter(|last| self.signs[*last].1 == Sign::Flag)?;
        let places = self.gathered_places(last, longest);
        (places.len() <= 8 * longest + 7).then(|| self.bits_at(&places))
    }
}

/// Bits into octets, lowest first; the last octet is zero filled.
pub fn octets_of(bits: &[bool]) -> Vec<u8> {
    bits.chunks(8).map(|chunk| chunk.iter().enumerate().map(|(i, bit)| u8::from(*bit) << i).sum()).collect()
}

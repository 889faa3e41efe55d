//! Sending, told by the list of contents sent: all bits put out since opening are one string.

use crate::check;
use crate::line::octets_of;

/// The contents sent since opening and the bits they put on the line.
#[derive(Clone, Debug, Default)]
pub struct Sender {
    contents: Vec<Vec<u8>>,
    line: Vec<bool>,
}

const FLAG: [bool; 8] = [false, true, true, true, true, true, true, false];

/// "a zero after every fifth one in a row, even where the flag follows".
fn with_zeros(bits: &[bool]) -> Vec<bool> {
    let mut put = Vec::new();
    let mut ones = 0;
    for bit in bits {
        put.push(*bit);
        ones = if *bit { ones + 1 } else { 0 };
        if ones == 5 {
            put.push(false);
            ones = 0;
        }
    }
    put
}

fn bits_of(octets: &[u8]) -> Vec<bool> {
    octets.iter().flat_map(|octet| (0..8).map(move |i| octet >> i & 1 == 1)).collect()
}

impl Sender {
    /// "Whole octets go out ... up to seven bits wait": what goes out when `bits` are put behind all bits before.
    fn put(&mut self, bits: &[bool]) -> Vec<u8> {
        let gone = self.line.len() / 8 * 8;
        self.line.extend(bits);
        let whole = self.line.len() / 8 * 8;
        octets_of(&self.line[gone..whole])
    }

    /// "Content, then two check octets ...; then one flag, which opens the next unit. The first output of a booking begins
    /// with a flag."
    pub fn send(&mut self, content: &[u8]) -> Vec<u8> {
        let mut bits = if self.flagged() { Vec::new() } else { FLAG.to_vec() };
        let unit = [content, &check::check_octets(content)].concat();
        bits.extend(with_zeros(&bits_of(&unit)));
        bits.extend(FLAG);
        self.contents.push(content.to_vec());
        self.put(&bits)
    }

    /// "Fill sends the first two octets of the last content sent, then an octet 0. Before any content it puts out one flag
    /// only".
    pub fn fill(&mut self) -> Vec<u8> {
        match self.last() {
            Some([first, second]) => self.send(&[first, second, 0]),
            None => self.put(&FLAG),
        }
    }

    /// A flag has gone out: every output ends with one.
    pub fn flagged(&self) -> bool {
        !self.line.is_empty()
    }

    /// The first two octets of the last content sent.
    pub fn last(&self) -> Option<[u8; 2]> {
        self.contents.last().map(|content| [content[0], content[1]])
    }

    pub fn waiting(&self) -> &[bool] {
        &self.line[self.line.len() / 8 * 8..]
    }
}

#[cfg(test)]
mod tests {
    use super::*;

    #[test]
    fn proved_case_14() {
        let shown: Vec<u8> = with_zeros(&bits_of(&[0x1F])).into_iter().map(u8::from).collect();
        assert_eq!(shown, [1, 1, 1, 1, 1, 0, 0, 0, 0]);
    }

    #[test]
    fn one_send_writes_at_most_335_octets() {
        assert_eq!(with_zeros(&vec![true; 8 * 278]).len(), 2_668);
        assert_eq!((8 + 2_668 + 8) / 8, 335);
    }
}

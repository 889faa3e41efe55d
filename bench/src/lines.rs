//! The lines that the engines are run on, all from one seed.
use crate::receiver::check;

/// A line, and whether it is timed or only compared.
pub struct Line {
    pub name: &'static str,
    pub octets: Vec<u8>,
    pub is_timed: bool,
}

impl Line {
    fn timed(name: &'static str, octets: Vec<u8>) -> Line {
        Line { name, octets, is_timed: true }
    }
}

/// SplitMix64.
pub struct Random(pub u64);

impl Random {
    fn next(&mut self) -> u64 {
        self.0 = self.0.wrapping_add(0x9E37_79B9_7F4A_7C15);
        let mut z = self.0;
        z = (z ^ z >> 30).wrapping_mul(0xBF58_476D_1CE4_E5B9);
        z = (z ^ z >> 27).wrapping_mul(0x94D0_49BB_1331_11EB);
        z ^ z >> 31
    }

    /// A number from 0 to n - 1.
    pub fn below(&mut self, n: usize) -> usize {
        (self.next() % n as u64) as usize
    }

    pub fn octets(&mut self, n: usize) -> Vec<u8> {
        (0..n).map(|_| self.next() as u8).collect()
    }
}

/// The sending side: bits packed into octets, lowest first.
struct Sender {
    line: Vec<u8>,
    octet: u8,
    bits: u32,
    ones: u32,
}

impl Sender {
    /// A line that begins with these octets and a flag.
    fn new(line: Vec<u8>) -> Sender {
        let mut sender = Sender { line, octet: 0, bits: 0, ones: 0 };
        sender.flag();
        sender
    }

    fn bit(&mut self, bit: u8) {
        self.octet |= bit << self.bits;
        self.bits += 1;
        if self.bits == 8 {
            self.line.push(self.octet);
            self.octet = 0;
            self.bits = 0;
        }
    }

    fn flag(&mut self) {
        for place in 0..8 {
            self.bit(0x7E >> place & 1);
        }
        self.ones = 0;
    }

    /// Octets of a unit, with a zero after every fifth one in a row.
    fn stuffed(&mut self, octets: &[u8]) {
        for octet in octets {
            for place in 0..8 {
                let bit = octet >> place & 1;
                self.bit(bit);
                self.ones = if bit == 1 { self.ones + 1 } else { 0 };
                if self.ones == 5 {
                    self.bit(0);
                    self.ones = 0;
                }
            }
        }
    }

    /// Content and its check octets, so many bits more, and a flag. Without bits more it is a good unit.
    fn unit(&mut self, content: &[u8], more: usize) {
        self.stuffed(content);
        self.stuffed(&(!check(content)).to_le_bytes());
        for _ in 0..more {
            self.bit(0);
        }
        self.flag();
    }

    /// Content without check octets, and a flag.
    fn unchecked(&mut self, content: &[u8]) {
        self.stuffed(content);
        self.flag();
    }

    /// The first octets of the line.
    fn cut(mut self, octets: usize) -> Vec<u8> {
        assert!(octets <= self.line.len());
        self.line.truncate(octets);
        self.line
    }
}

/// Fill-in units, with other sequence numbers after every 500.
fn idle(octets: usize, random: &mut Random) -> Vec<u8> {
    let mut sender = Sender::new(Vec::new());
    while sender.line.len() < octets {
        let content = [random.next() as u8, random.next() as u8, 0];
        for _ in 0..500 {
            sender.unit(&content, 0);
        }
    }
    sender.cut(octets)
}

/// Good units of 5 to 278 octets, check octets included.
fn mixed(octets: usize, random: &mut Random) -> Vec<u8> {
    let mut sender = Sender::new(Vec::new());
    while sender.line.len() < octets {
        let length = 3 + random.below(274);
        let content = random.octets(length);
        sender.unit(&content, 0);
    }
    sender.cut(octets)
}

/// A line with one bit in so many turned over, at random places.
fn damaged(mut line: Vec<u8>, one_in: usize, random: &mut Random) -> Vec<u8> {
    for _ in 0..8 * line.len() / one_in {
        let place = random.below(8 * line.len());
        line[place / 8] ^= 1 << (place % 8);
    }
    line
}

/// Six ones that are no flag; then units of 4 to 9 octets with few contents, each repeated some times, and among them units without check
/// octets, units of not whole octets and units at the longest length.
fn repeats(octets: usize, random: &mut Random) -> Vec<u8> {
    let mut sender = Sender::new(vec![0x3F]);
    while sender.line.len() < octets {
        let length = 2 + random.below(6);
        let content = vec![random.below(2) as u8; length];
        for _ in 0..random.below(6) {
            sender.unit(&content, 0);
        }
        match random.below(40) {
            0..=9 => sender.unchecked(&content),
            10..=14 => sender.unit(&content, 1 + random.below(7)),
            15 => sender.unit(&vec![0; 276 + random.below(2)], random.below(2)),
            _ => {}
        }
    }
    sender.cut(octets)
}

pub fn lines(octets: usize, seed: u64) -> Vec<Line> {
    let random = &mut Random(seed);
    let idle = idle(octets, random);
    let mixed = mixed(octets, random);
    let noisy = damaged(mixed.clone(), 4_000, random);
    let repeats = repeats(octets, random);
    let repeats = damaged(repeats, 1_000, random);
    vec![
        Line::timed("idle", idle),
        Line::timed("mixed", mixed),
        Line::timed("noisy", noisy),
        Line::timed("random", random.octets(octets)),
        Line::timed("flags only", vec![0x7E; octets]),
        Line { name: "repeats", octets: repeats, is_timed: false },
    ]
}

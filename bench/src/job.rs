//! What every engine is given: a line with its settings, and the memory that a host lends.

/// Octets of a slot, number of slots, octets of a record, and the most records of one line octet.
pub const SLOT: usize = 280;
pub const SLOTS: usize = 16;
pub const RECORD: usize = 16;
pub const MOST_RECORDS: usize = 3;
/// Octets of a link as the proved engines put it: 30 numbers of two octets, and its four arrays.
pub const LINK: usize = 60 + 279 + 5 + 5 + 2;
/// The most octets of one call.
pub const MOST_CALL: usize = 1024;

/// The switches, as bits of one number.
pub const FILTER: u64 = 1;
pub const ITU: u64 = 2;
pub const ORN: u64 = 4;

/// A line, the switches of the booking that it is fed to, and how many octets go into each call: the lengths are gone through again and
/// again.
pub struct Job<'a> {
    pub line: &'a [u8],
    pub switches: u64,
    pub lengths: &'a [u16],
}

/// Pool, descriptors, the record area of one call, and the area to which the records of all calls are copied as long as they fit. Behind
/// them the proved engines put their link.
pub struct Memory {
    pub pool: Vec<u8>,
    pub descriptors: Vec<u16>,
    pub records: Vec<u8>,
    pub output: Vec<u8>,
}

impl Memory {
    pub fn new(output: usize) -> Memory {
        Memory {
            pool: vec![0; SLOT * SLOTS],
            descriptors: vec![0; 2 * SLOTS],
            records: vec![0; RECORD * MOST_RECORDS * MOST_CALL],
            output: vec![0; output],
        }
    }

    /// Zeroes what a booking wants zero.
    pub fn clear_slots(&mut self) {
        self.pool.fill(0);
        self.descriptors.fill(0);
    }
}

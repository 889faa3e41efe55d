//! The memory that the host lends: the pool and the descriptors, and how much of each area is lent.

pub const SLOT: usize = 280;
pub const EMPTY: u16 = 32_768;

/// Limits of the console's areas.
pub const POOL: usize = 4_608;
pub const DESCRIPTORS: usize = 40;
pub const RECORDS: usize = 49_152;
pub const OUTPUT: usize = 512;

/// Pool and descriptors as they stand. Of the record and output areas only what the last call wrote is ever shown, so
/// they need no memory here.
#[derive(Clone, Debug)]
pub struct Memory {
    pub pool: Vec<u8>,
    pub descriptors: Vec<u16>,
}

impl Memory {
    /// All zero: at the start and after `wipe`.
    pub fn zero() -> Memory {
        Memory { pool: vec![0; POOL], descriptors: vec![0; DESCRIPTORS] }
    }

    pub fn octets(&self, slot: usize) -> &[u8] {
        &self.pool[SLOT * slot..SLOT * (slot + 1)]
    }

    pub fn status(&self, slot: usize) -> u16 {
        self.descriptors[2 * slot]
    }

    pub fn length(&self, slot: usize) -> u16 {
        self.descriptors[2 * slot + 1]
    }

    /// "Status 32768 = empty": that word exactly, as it stands now.
    pub fn is_empty(&self, slot: usize) -> bool {
        self.status(slot) == EMPTY
    }

    /// "octets with check octets, the rest of the 280 zero, length, status".
    pub fn fill(&mut self, slot: usize, octets: &[u8], status: u16) {
        let whole = &mut self.pool[SLOT * slot..SLOT * (slot + 1)];
        whole.fill(0);
        whole[..octets.len()].copy_from_slice(octets);
        self.descriptors[2 * slot] = status;
        self.descriptors[2 * slot + 1] = octets.len() as u16;
    }

    /// "Hand back zeroes the slot and its length and marks it empty."
    pub fn hand_back(&mut self, slot: usize) {
        self.fill(slot, &[], EMPTY);
    }

    /// "a pool octet or descriptor word not zero", among those lent.
    pub fn is_zero(&self, pool: usize, descriptors: usize) -> bool {
        self.pool[..pool].iter().all(|octet| *octet == 0) && self.descriptors[..descriptors].iter().all(|word| *word == 0)
    }
}

/// What `size` fixed; `None` is left to the console.
#[derive(Clone, Debug, Default)]
pub struct Sizes {
    pub pool: Option<usize>,
    pub descriptors: Option<usize>,
    pub records: Option<usize>,
    pub output: Option<usize>,
}

impl Sizes {
    /// "pool 280K octets ... for the K given or held, at most the area".
    pub fn pool_lent(&self, k: usize) -> usize {
        self.pool.unwrap_or((SLOT * k).min(POOL))
    }

    /// "descriptors 2K words for the K given or held, at most the area".
    pub fn descriptors_lent(&self, k: usize) -> usize {
        self.descriptors.unwrap_or((2 * k).min(DESCRIPTORS))
    }

    pub fn records_lent(&self) -> usize {
        self.records.unwrap_or(RECORDS)
    }

    pub fn output_lent(&self) -> usize {
        self.output.unwrap_or(OUTPUT)
    }

    /// "the slots lent whole in both areas".
    pub fn whole_slots(&self, k: usize) -> usize {
        (self.pool_lent(k) / SLOT).min(self.descriptors_lent(k) / 2)
    }
}

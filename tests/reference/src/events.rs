//! Event bits, "kept until cleared".

#[derive(Clone, Copy, Debug, PartialEq, Eq)]
pub enum EventBit {
    HandedOver = 0,
    Bsy = 1,
    Suer = 2,
    Aerm = 3,
    Oct = 4,
    Abort = 5,
    Long = 6,
    Sent = 7,
    FillInSent = 8,
}

const BITS: usize = 9;

/// For each bit when it last came and when it was last cleared, in happenings since opening.
#[derive(Clone, Debug, Default)]
pub struct Events {
    happenings: usize,
    last_came: [Option<usize>; BITS],
    last_cleared: [Option<usize>; BITS],
}

impl Events {
    pub fn came(&mut self, bit: EventBit) {
        self.happenings += 1;
        self.last_came[bit as usize] = Some(self.happenings);
    }

    /// "A further call clears chosen event bits".
    pub fn cleared(&mut self, word: usize) {
        self.happenings += 1;
        for bit in (0..BITS).filter(|bit| word >> bit & 1 == 1) {
            self.last_cleared[bit] = Some(self.happenings);
        }
    }

    /// A bit is set exactly if it came and was not cleared after that.
    pub fn word(&self) -> u16 {
        (0..BITS).filter(|bit| self.last_came[*bit] > self.last_cleared[*bit]).map(|bit| 1 << bit).sum()
    }
}

//! Records: "Sixteen octets each, no header, low octet first".

#[derive(Clone, Copy, Debug, PartialEq, Eq)]
pub enum RecordKind {
    HandedOver = 0,
    Dropped = 1,
    GoodButLost = 2,
    CheckWrong = 3,
    NotWhole = 4,
    Short = 5,
    Long = 6,
    Abort = 7,
    OctetTick = 8,
}

#[derive(Clone, Debug)]
pub struct Record {
    pub kind: RecordKind,
    pub lost: bool,
    pub length: usize,
    pub monitor_count: usize,
    pub good_count: u16,
    pub first: [u8; 5],
    pub alarm: bool,
}

impl Record {
    /// "0 kind; 1 one if lost for want of a slot; 2-3 length; 4-5 monitor count after it; 6-7 good count; 8-12 first five
    /// octets, zero filled; 13 one if this event raised SUER or AERM; 14-15 zero."
    pub fn octets(&self) -> [u8; 16] {
        let mut octets = [0; 16];
        octets[0] = self.kind as u8;
        octets[1] = u8::from(self.lost);
        octets[2..4].copy_from_slice(&(self.length as u16).to_le_bytes());
        octets[4..6].copy_from_slice(&(self.monitor_count as u16).to_le_bytes());
        octets[6..8].copy_from_slice(&self.good_count.to_le_bytes());
        octets[8..13].copy_from_slice(&self.first);
        octets[13] = u8::from(self.alarm);
        octets
    }
}

//! Settings of a booking and the rows ready for use.

/// "Settings of a booking": K, M, N, T, D, A, the mask and the three switches.
#[derive(Clone, Debug, PartialEq, Eq)]
pub struct Settings {
    pub k: usize,
    pub m: usize,
    pub n: usize,
    pub t: usize,
    pub d: usize,
    pub a: usize,
    pub mask: [u8; 5],
    pub filter: bool,
    pub itu: bool,
    pub orn: bool,
}

impl Settings {
    /// "K 1 to 16; longest unit M 7 to 278 octets, check octets included; N, T, D, A each 1 to 1,024".
    pub fn in_range(&self) -> bool {
        let counts = [self.n, self.t, self.d, self.a];
        (1..=16).contains(&self.k) && (7..=278).contains(&self.m) && counts.iter().all(|c| (1..=1024).contains(c))
    }
}

/// "Rows ready for use": M N T D A of a row; zeros for a number that is no row's.
pub fn row(number: usize) -> [usize; 5] {
    match number {
        1 => [278, 16, 64, 256, 4],
        2 => [278, 16, 64, 256, 1],
        3 => [278, 16, 32, 256, 4],
        4 => [278, 16, 32, 256, 1],
        _ => [0; 5],
    }
}

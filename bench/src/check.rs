//! The check of a content as a send works it: the proved function, from the static library of the crate `bench_check`, beside the
//! bit-by-bit one of the Rust program.
use crate::lines::Random;
use crate::receiver::check;
use crate::{OCTETS, SWEEPS};
use std::hint::black_box;
use std::time::{Duration, Instant};

/// Octets of a content: those of a fill-in unit, some, and the most.
const CONTENTS: [usize; 3] = [3, 62, 276];

fn proved_check(content: &[u8]) -> u16 {
    extern "C" {
        // A slice of the Rattle function is a pointer and a length.
        fn bench_check(content: *const u8, content_len: usize) -> u16;
    }
    // SAFETY: the pointer is that of a live slice, with that slice's length, and the function has no `requires`.
    unsafe { bench_check(content.as_ptr(), content.len()) }
}

/// Panics if the two differ on a content of random octets: of each length, a thousand.
pub fn compare(seed: u64) {
    let octets = Random(seed).octets(OCTETS);
    let places = 0..1000;
    for length in 0..=CONTENTS[2] {
        for content in places.clone().map(|at| &octets[at..at + length]) {
            assert_eq!(proved_check(content), check(content), "the check of {content:02x?}");
        }
    }
    println!(
        "{} contents compared: the check by half octets and the Rust program's give the same.",
        places.len() * (CONTENTS[2] + 1)
    );
}

/// Nanoseconds for each octet of a content.
pub fn print_times(seed: u64) {
    let octets = Random(seed).octets(OCTETS);
    println!("The check of a content, nanoseconds for each octet, the minimum of {SWEEPS} sweeps over {OCTETS} octets.");
    println!("{:>14}  {:>12}  {:>5}  {:>19}", "content octets", "half octets", "Rust", "Rust / half octets");
    for length in CONTENTS {
        let (halves, bits) = (time(&octets, length, proved_check), time(&octets, length, check));
        println!("{length:>14}  {halves:>12.2}  {bits:>5.2}  {:>19.2}", bits / halves);
    }
}

/// The shortest time of a sweep: each content of the given length by itself.
fn time(octets: &[u8], length: usize, check: fn(&[u8]) -> u16) -> f64 {
    let sweep = || {
        let start = Instant::now();
        for content in octets.chunks_exact(length) {
            black_box(check(black_box(content)));
        }
        start.elapsed()
    };
    let shortest = (0..SWEEPS).map(|_| sweep()).min().unwrap_or(Duration::ZERO);
    shortest.as_nanos() as f64 / (octets.len() / length * length) as f64
}

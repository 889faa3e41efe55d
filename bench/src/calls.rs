//! The calls of a host, each made many times on one link: the function of the crate `bench_calls`, from its static library.
use crate::job::Memory;
use crate::lines::Random;
use crate::SWEEPS;
use std::hint::black_box;
use std::time::{Duration, Instant};

/// A call by its number there, and how many octets it is given.
struct Call {
    name: &'static str,
    number: u64,
    octets: usize,
}

const CALLS: [Call; 14] = [
    Call { name: "wipe and open", number: 0, octets: 0 },
    Call { name: "command", number: 1, octets: 0 },
    Call { name: "clear", number: 2, octets: 0 },
    Call { name: "read_number and read", number: 3, octets: 0 },
    Call { name: "hand back", number: 4, octets: 0 },
    Call { name: "receive", number: 5, octets: 0 },
    Call { name: "receive", number: 5, octets: 1 },
    Call { name: "receive_octets", number: 6, octets: 0 },
    Call { name: "receive_octets", number: 6, octets: 1 },
    Call { name: "send", number: SEND, octets: 3 },
    Call { name: "send", number: SEND, octets: 10 },
    Call { name: "send", number: SEND, octets: 62 },
    Call { name: "send", number: SEND, octets: 272 },
    Call { name: "fill after a send", number: FILL, octets: 3 },
];

/// The two calls that put octets on the line.
const SEND: u64 = 7;
const FILL: u64 = 8;

/// Octets of an output area, and the octet that is received.
const OUTPUT: usize = 336;
const FLAG: u8 = 0x7E;
/// A sweep takes at least so long.
const SWEEP: Duration = Duration::from_millis(1);
/// Calls over which the octets put out are counted; their sum stays below 65,536, from where it is not whole.
const COUNTED: u64 = 100;

/// Makes a call so many times on a new link, and gives the sum of its answers.
fn make(call: &Call, times: u64, octets: &[u8], memory: &mut Memory) -> usize {
    extern "C" {
        // A slice of the Rattle function is a pointer and a length.
        fn bench_calls(
            call: u64,
            times: u64,
            octets: *const u8,
            octets_len: usize,
            pool: *mut u8,
            pool_len: usize,
            descriptors: *mut u16,
            descriptors_len: usize,
            records: *mut u8,
            records_len: usize,
            output: *mut u8,
            output_len: usize,
        ) -> usize;
    }
    memory.clear_slots();
    // SAFETY: each pointer is that of a live slice, with that slice's length; no two of them overlap, and the function has no `requires`.
    unsafe {
        bench_calls(
            call.number,
            times,
            octets.as_ptr(),
            octets.len(),
            memory.pool.as_mut_ptr(),
            memory.pool.len(),
            memory.descriptors.as_mut_ptr(),
            memory.descriptors.len(),
            memory.records.as_mut_ptr(),
            memory.records.len(),
            memory.output.as_mut_ptr(),
            memory.output.len(),
        )
    }
}

/// Nanoseconds for each call, and for each octet that it puts on the line.
pub fn print_times(seed: u64) {
    let contents = Random(seed).octets(OUTPUT);
    let mut memory = Memory::new(OUTPUT);
    println!("The calls, nanoseconds for each, the minimum of {SWEEPS} sweeps on one link.");
    println!("{:<21}{:>6}  {:>9}  {:>14}  {:>13}", "call", "octets", "ns a call", "octets put out", "ns for each");
    for call in &CALLS {
        let octets = if call.number < SEND { &[FLAG; 1][..call.octets] } else { &contents[..call.octets] };
        let time = time(call, octets, &mut memory);
        print!("{:<21}{:>6}  {time:>9.1}", call.name, call.octets);
        if call.number >= SEND {
            let out = make(call, COUNTED, octets, &mut memory) as f64 / COUNTED as f64;
            print!("  {out:>14.1}  {:>13.2}", time / out);
        }
        println!();
    }
}

/// The shortest time of a sweep, in nanoseconds for each call; the opening of the link is in it once a sweep.
fn time(call: &Call, octets: &[u8], memory: &mut Memory) -> f64 {
    let mut sweep = |times: u64| {
        let start = Instant::now();
        black_box(make(black_box(call), times, black_box(octets), memory));
        start.elapsed()
    };
    let mut times = 1024;
    while sweep(times) < SWEEP {
        times *= 2;
    }
    let shortest = (0..SWEEPS).map(|_| sweep(times)).min().unwrap_or(Duration::ZERO);
    shortest.as_nanos() as f64 / times as f64
}

//! The proved engines, each from a static library of its own: the crates `bench_receive` and `bench_octets`.
use crate::job::{Job, Memory};

/// A function that puts a whole line through one link of the exported engine, and says how many records came.
macro_rules! engine {
    ($(#[$about:meta])* $name:ident, $exported:ident) => {
        $(#[$about])*
        pub fn $name(job: &Job, memory: &mut Memory) -> usize {
            extern "C" {
                // A slice of the Rattle function is a pointer and a length.
                fn $exported(
                    switches: u64,
                    lengths: *const u16,
                    lengths_len: usize,
                    line: *const u8,
                    line_len: usize,
                    pool: *mut u8,
                    pool_len: usize,
                    descriptors: *mut u16,
                    descriptors_len: usize,
                    records: *mut u8,
                    records_len: usize,
                    output: *mut u8,
                    output_len: usize,
                ) -> usize;
            }
            // SAFETY: each pointer is that of a live slice, with that slice's length; no two of them overlap, and the function has no
            // `requires`.
            unsafe {
                $exported(
                    job.switches,
                    job.lengths.as_ptr(),
                    job.lengths.len(),
                    job.line.as_ptr(),
                    job.line.len(),
                    memory.pool.as_mut_ptr(),
                    memory.pool.len(),
                    memory.descriptors.as_mut_ptr(),
                    memory.descriptors.len(),
                    memory.records.as_mut_ptr(),
                    memory.records.len(),
                    memory.output.as_mut_ptr(),
                    memory.output.len(),
                )
            }
        }
    };
}

engine! {
    /// The engine that goes bit by bit: the call `receive`.
    receive, bench_receive
}

engine! {
    /// The engine that goes by whole octets: the call `receive_octets`.
    receive_octets, bench_octets
}

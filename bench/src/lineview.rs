//! The program lineview, as `make bench` builds it: it reads a line from a file and writes the records to another.
use crate::job::{Job, RECORD};
use crate::lines::Line;
use crate::{outcome, ENGINES, SWEEPS};
use std::fs::{self, File};
use std::io;
use std::process::Command;
use std::time::{Duration, Instant};

/// The lines that it is timed on.
const TIMED: [&str; 3] = ["idle", "mixed", "random"];

const PROGRAM: &str = concat!(env!("CARGO_MANIFEST_DIR"), "/../target/bin/lineview");
const INPUT: &str = concat!(env!("CARGO_MANIFEST_DIR"), "/../target/bench/lineview.line");
const OUTPUT: &str = concat!(env!("CARGO_MANIFEST_DIR"), "/../target/bench/lineview.records");

/// Nanoseconds for each line octet, the start of the program included. Panics if it writes other records than receive in calls of one octet.
pub fn print_times(lines: &[Line]) {
    println!("The program lineview, nanoseconds for each line octet, the minimum of {SWEEPS} runs.");
    println!("It writes the same records as receive in calls of one octet.");
    println!("{:<11}{:>8}  {:>7}  {:>11}", "line", "octets", "records", "ns an octet");
    for line in lines.iter().filter(|line| TIMED.contains(&line.name)) {
        let expected = records(line);
        let time = time(line, &expected).unwrap_or_else(|error| panic!("{PROGRAM} on the line {}: {error}", line.name));
        let each = time.as_nanos() as f64 / line.octets.len() as f64;
        println!("{:<11}{:>8}  {:>7}  {each:>11.1}", line.name, line.octets.len(), expected.len() / RECORD);
    }
}

/// The records that receive gives, called for each octet by itself.
fn records(line: &Line) -> Vec<u8> {
    let (memory, count) = outcome(&ENGINES[0], &Job { line: &line.octets, switches: 0, lengths: &[1] });
    memory.output[..RECORD * count].to_vec()
}

/// The shortest time of a run.
fn time(line: &Line, expected: &[u8]) -> io::Result<Duration> {
    fs::write(INPUT, &line.octets)?;
    let mut shortest = Duration::MAX;
    for _ in 0..SWEEPS {
        let mut program = Command::new(PROGRAM);
        program.stdin(File::open(INPUT)?).stdout(File::create(OUTPUT)?);
        let start = Instant::now();
        let status = program.status()?;
        shortest = shortest.min(start.elapsed());
        assert!(status.success(), "lineview ends with {status}");
        assert!(fs::read(OUTPUT)? == expected, "lineview writes other records on the line {}", line.name);
    }
    Ok(shortest)
}

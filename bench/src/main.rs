//! Times the engines on the same lines: nanoseconds for each line octet. Before that it sees that they all give the same. Then the check of
//! a content likewise, the calls one by one, and the program lineview.
mod board;
mod calls;
mod check;
mod job;
mod lines;
mod lineview;
mod receiver;

use job::{Job, Memory, FILTER, LINK, RECORD};
use lines::{Line, Random};
use std::hint::black_box;
use std::time::{Duration, Instant};

/// An engine under its name, and whether it puts its link behind the records.
struct Engine {
    name: &'static str,
    run: fn(&Job, &mut Memory) -> usize,
    shows_link: bool,
}

const ENGINES: [Engine; 3] = [
    Engine { name: "receive", run: board::receive, shows_link: true },
    Engine { name: "receive_octets", run: board::receive_octets, shows_link: true },
    Engine { name: "Rust", run: receiver::run, shows_link: false },
];

/// Pairs of engines: how many times as fast the second is as the first.
const RATIOS: [(usize, usize); 3] = [(0, 1), (2, 1), (2, 0)];

const SEED: u64 = 703;
const OCTETS: usize = 1 << 20;
const CALLS: [u16; 3] = [1, 64, 1024];
const SWEEPS: usize = 7;
/// A sweep goes through the line in parts, each with a booking of its own; the shortest time of each part counts.
const PARTS: usize = 32;
/// Settings of the three switches.
const SETTINGS: u64 = 8;
/// The most octets of a part that is compared; each part has a booking of its own.
const MOST_COMPARED: usize = 1 << 14;

fn main() {
    let lines = lines::lines(OCTETS, SEED);
    compare_all(&lines);
    check::compare(SEED);
    println!("Nanoseconds for each line octet: {OCTETS} octets in {PARTS} parts, of each part the minimum of {SWEEPS} sweeps.");
    println!("Rust is the bit-by-bit program of bench/. A / B says how many times as fast B is as A.");
    println!("Pool and descriptors were cleared before each run, outside the time; the record area was not.");
    println!();
    print_head();
    let mut growth = [0.0_f64; ENGINES.len()];
    for line in lines.iter().filter(|line| line.is_timed) {
        for switches in [0, FILTER] {
            let times = CALLS.map(|call| time(&Job { line: &line.octets, switches, lengths: &[call] }));
            for (call, times) in CALLS.iter().zip(&times) {
                print_row(line.name, *call, switches, times);
            }
            for (engine, most) in growth.iter_mut().enumerate() {
                *most = most.max(16.0 * times[2][engine] / times[1][engine]);
            }
        }
        println!();
    }
    for (engine, most) in ENGINES.iter().zip(growth) {
        println!("{}: a call of 1,024 octets costs at most {most:.1} times a call of 64.", engine.name);
    }
    println!();
    check::print_times(SEED);
    println!();
    calls::print_times(SEED);
    println!();
    lineview::print_times(&lines);
}

/// Sees that the engines give the same on every line: with each setting of the switches, in parts and cuttings of random lengths.
fn compare_all(lines: &[Line]) {
    let random = &mut Random(SEED);
    let (mut runs, mut octets) = (0, 0);
    for line in lines {
        for switches in 0..SETTINGS {
            let mut rest = &line.octets[..];
            while !rest.is_empty() {
                let (part, later) = rest.split_at(rest.len().min(1 + random.below(MOST_COMPARED)));
                rest = later;
                compare(line.name, &Job { line: part, switches, lengths: &cutting(random) });
                runs += 1;
                octets += part.len();
            }
        }
    }
    println!("{runs} runs over {octets} octets compared: the engines give the same records, pool, descriptors and link.");
}

/// Lengths of calls, up to a random one of 1 to 1,024 octets.
fn cutting(random: &mut Random) -> Vec<u16> {
    let most = 1 << random.below(11);
    (0..100).map(|_| 1 + random.below(most) as u16).collect()
}

/// Panics if an engine gives other records than the first one, or leaves another pool, other descriptors or, where it shows it, another
/// link.
fn compare(name: &str, job: &Job) {
    let at = || format!("line {name}, {} octets, switches {}, calls of {:?}", job.line.len(), job.switches, job.lengths);
    let (expected, wanted) = outcome(&ENGINES[0], job);
    for engine in &ENGINES[1..] {
        let (memory, count) = outcome(engine, job);
        let (a, b) = (&expected.output[..RECORD * wanted], &memory.output[..RECORD * count]);
        if a != b {
            let same = a.chunks(RECORD).zip(b.chunks(RECORD)).take_while(|(x, y)| x == y).count();
            panic!(
                "{}: {} and {} differ at record {same} of {wanted} and {count}: {:02x?} and {:02x?}",
                at(),
                ENGINES[0].name,
                engine.name,
                a.chunks(RECORD).nth(same),
                b.chunks(RECORD).nth(same),
            );
        }
        assert!(memory.descriptors == expected.descriptors, "{}: {} leaves other descriptors", at(), engine.name);
        assert!(memory.pool == expected.pool, "{}: {} leaves another pool", at(), engine.name);
        if engine.shows_link {
            let (a, b) = (&expected.output[RECORD * wanted..], &memory.output[RECORD * count..]);
            assert!(a[0] == 1, "{}: {} shows no open link", at(), engine.name);
            assert!(a[..LINK] == b[..LINK], "{}: {} leaves another link", at(), engine.name);
        }
    }
}

/// What an engine leaves in cleared memory, and how many records it gives.
fn outcome(engine: &Engine, job: &Job) -> (Memory, usize) {
    let mut memory = Memory::new(RECORD * job.line.len() + LINK);
    let count = (engine.run)(job, &mut memory);
    assert!(RECORD * count + LINK <= memory.output.len(), "more records than the output area takes");
    (memory, count)
}

/// The shortest time of each engine, in nanoseconds for a line octet: the sum of the shortest times of the line's parts.
fn time(job: &Job) -> [f64; ENGINES.len()] {
    let mut memory = Memory::new(0);
    let mut shortest = [[Duration::MAX; PARTS]; ENGINES.len()];
    for _ in 0..SWEEPS {
        for (engine, parts) in ENGINES.iter().zip(&mut shortest) {
            for (line, shortest) in job.line.chunks(OCTETS / PARTS).zip(parts) {
                *shortest = (*shortest).min(sweep(engine, &Job { line, ..*job }, &mut memory));
            }
        }
    }
    shortest.map(|parts| parts.iter().sum::<Duration>().as_nanos() as f64 / OCTETS as f64)
}

/// The time of one run on cleared slots. Records are written but not copied: the output area is empty.
fn sweep(engine: &Engine, job: &Job, memory: &mut Memory) -> Duration {
    memory.clear_slots();
    let start = Instant::now();
    black_box((engine.run)(black_box(job), black_box(memory)));
    start.elapsed()
}

/// Heads of the columns of figures: the engines, then the ratios.
fn heads() -> Vec<String> {
    let engines = ENGINES.iter().map(|engine| engine.name.to_string());
    let ratios = RATIOS.iter().map(|&(slow, fast)| format!("{} / {}", ENGINES[slow].name, ENGINES[fast].name));
    engines.chain(ratios).collect()
}

fn print_head() {
    let mut head = format!("{:<11}{:>8} {:<6}", "line", "a call", "filter");
    for column in heads() {
        head += &format!("  {column}");
    }
    println!("{head}");
    println!("{}", "-".repeat(head.len()));
}

fn print_row(name: &str, call: u16, switches: u64, times: &[f64; ENGINES.len()]) {
    let filter = if switches == FILTER { "on" } else { "off" };
    print!("{name:<11}{call:>8} {filter:<6}");
    let ratios = RATIOS.iter().map(|&(slow, fast)| times[slow] / times[fast]);
    for (column, figure) in heads().iter().zip(times.iter().copied().chain(ratios)) {
        print!("  {figure:>width$.2}", width = column.len());
    }
    println!();
}

//! Every call compared with a model written from documents 01 and 02, on random, edge and damaged inputs, and with the shared vectors. A
//! case is one call: its answer, the state handed back and all lent memory are compared. Half of the cases have a fixed seed; the
//! other half's is taken from the clock, or from the variable MASTDOCK_SEED, and printed.
mod cases;
mod edges;
mod editions;
mod lent;
mod model;
mod pauses;
mod random;
mod units;
mod vectors;

use cases::{Part, PARTS};
use random::Random;
use std::panic::{catch_unwind, AssertUnwindSafe};
use std::process::exit;
use std::sync::atomic::{AtomicUsize, Ordering};
use std::sync::Mutex;
use std::thread;
use std::time::{Instant, SystemTime, UNIX_EPOCH};

const FIXED_SEED: u64 = 2026;

fn chosen_seed() -> u64 {
    match std::env::var("MASTDOCK_SEED") {
        Ok(text) => text.parse().unwrap_or_else(|_| {
            eprintln!("MASTDOCK_SEED is not a number: {text}");
            exit(2)
        }),
        Err(_) => SystemTime::now().duration_since(UNIX_EPOCH).map_or(1, |time| time.as_nanos() as u64),
    }
}

/// One part with one seed. Gives the number of calls compared.
fn run_part(number: usize, part: &Part, seed: u64) -> u64 {
    let mut calls = 0;
    for case in 0..part.cases {
        let mut random = Random::of_case(seed, number as u64, case);
        match catch_unwind(AssertUnwindSafe(|| (part.run)(&mut random))) {
            Ok(count) => calls += count,
            Err(_) => {
                eprintln!("part '{}', case {case}, seed {seed}: failed", part.name);
                exit(1);
            }
        }
    }
    calls
}

/// All parts with both seeds, over all processors.
fn run_all(seeds: &[u64]) -> Vec<u64> {
    let work: Vec<(usize, u64)> =
        (0..PARTS.len()).flat_map(|part| seeds.iter().map(move |seed| (part, *seed))).collect();
    let next = AtomicUsize::new(0);
    let calls = Mutex::new(vec![0; PARTS.len()]);
    let threads = thread::available_parallelism().map_or(2, |count| count.get());
    thread::scope(|scope| {
        for _ in 0..threads {
            scope.spawn(|| {
                while let Some((number, seed)) = work.get(next.fetch_add(1, Ordering::Relaxed)) {
                    let count = run_part(*number, &PARTS[*number], *seed);
                    calls.lock().unwrap()[*number] += count;
                }
            });
        }
    });
    calls.into_inner().unwrap()
}

fn main() {
    let start = Instant::now();
    let seeds = [FIXED_SEED, chosen_seed()];
    println!("fixed seed {}, other seed {} (MASTDOCK_SEED repeats it)", seeds[0], seeds[1]);
    let vectors = vectors::run();
    println!("{vectors:>8} shared vectors");
    edges::run();
    editions::run();
    pauses::run();
    units::run();
    let calls = run_all(&seeds);
    for (part, count) in PARTS.iter().zip(&calls) {
        println!("{count:>8} {}", part.name);
    }
    println!("answers of each place, a refusal's number or 0, and how often:");
    cases::print_seen();
    let total: u64 = calls.iter().sum();
    println!("{total:>8} cases agree with the model, in {:.1} s", start.elapsed().as_secs_f64());
}

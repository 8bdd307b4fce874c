//! The cases: inputs, a call, the model's answer, and the comparison.
mod chain;
mod file;
mod hash;
mod opening;
mod record;
mod run;
mod unit;
mod writing;

use crate::random::Random;
pub use file::proof_file;
use mastdock::{Made, Refusal};
pub use record::{pause, resume_both};
pub use run::new_run;
use std::collections::BTreeMap;
use std::sync::Mutex;
pub use unit::{advance_both as advance_unit, places_of};

/// A part of the tests: how many cases it has for a seed, and one of them, which gives the number of calls that it compared.
pub struct Part {
    pub name: &'static str,
    pub cases: u64,
    pub run: fn(&mut Random) -> u64,
}

pub const PARTS: &[Part] = &[
    Part { name: "digest: one call", cases: 6000, run: hash::digests },
    Part { name: "hash: portions from the start", cases: 2000, run: hash::portions },
    Part { name: "hash: any state", cases: 4000, run: hash::any_state },
    Part { name: "run: start", cases: 3000, run: run::starts },
    Part { name: "run: whole runs by budgets", cases: 300, run: run::whole },
    Part { name: "run: any state", cases: 6000, run: run::any_state },
    Part { name: "run: the largest store", cases: 2, run: run::largest_store },
    Part { name: "record: written, and read back", cases: 6000, run: record::written },
    Part { name: "record: any bytes read", cases: 3000, run: record::any_bytes },
    Part { name: "record: whole runs with pauses", cases: 300, run: record::whole },
    Part { name: "record: any state goes on", cases: 3000, run: record::goes_on },
    Part { name: "unit: whole units by budgets", cases: 150, run: unit::whole },
    Part { name: "unit: label by label", cases: 100, run: unit::label_by_label },
    Part { name: "unit: any state", cases: 3000, run: unit::any_state },
    Part { name: "unit: the largest stores", cases: 2, run: unit::largest_stores },
    Part { name: "opening: start", cases: 4000, run: opening::starts },
    Part { name: "opening: whole openings by budgets", cases: 700, run: opening::whole },
    Part { name: "opening: any state", cases: 5000, run: opening::any_state },
    Part { name: "challenge", cases: 5000, run: file::challenges },
    Part { name: "head written", cases: 5000, run: file::heads },
    Part { name: "head read, and where openings lie", cases: 1500, run: file::places },
    Part { name: "one opening checked", cases: 4000, run: file::openings },
    Part { name: "file checked", cases: 4000, run: file::files },
    Part { name: "writing: start", cases: 2000, run: writing::starts },
    Part { name: "writing: whole files by budgets", cases: 300, run: writing::whole },
    Part { name: "writing: any state", cases: 3000, run: writing::any_state },
    Part { name: "plan", cases: 6000, run: chain::plans },
    Part { name: "openings compared", cases: 3000, run: chain::comparisons },
    Part { name: "draw", cases: 500, run: chain::drawings },
];

/// The numbers of each place of document 01's table and of the change requests, 0 for none. All of them are to be seen; only so many
/// bytes that the digest in one call refuses them cannot be lent. Of a file accepted, of one drawn and of openings that disagree the
/// edition: each is to be seen in both (W-206). Of a unit (W-208) the run that 4 or 3 was found in, how many runs a call served, whether
/// none of them ended in it (0), some did (1) or all were finished before (2), and whether a store lies somewhere (1) or nowhere.
const ROWS: &[(&str, &[u64])] = &[
    ("hash update", &[0, 5]),
    ("hash finish", &[0, 5]),
    ("digest", &[0]),
    ("run start", &[0, 1, 2, 3]),
    ("run advance", &[0, 4, 3]),
    ("run record", &[0, 4, 7]),
    ("run resume", &[0, 10, 11, 12, 4, 18]),
    ("unit advance", &[0, 21, 4, 3]),
    ("unit 4 in run", &[1, 2, 3, 4, 5, 6, 7, 8]),
    ("unit 3 in run", &[1, 2, 3, 4, 5, 6, 7, 8]),
    ("unit runs served", &[1, 2, 3, 4, 5, 6, 7, 8]),
    ("unit runs ending", &[0, 1, 2]),
    ("unit store place", &[0, 1]),
    ("opening start", &[0, 12, 1, 2, 3, 6, 7]),
    ("opening advance", &[0, 4, 3, 7]),
    ("challenge", &[0, 12, 1, 8]),
    ("write head", &[0, 12, 1, 8, 7]),
    ("read head", &[0, 10, 11, 12, 1, 8]),
    ("check opening", &[0, 12, 1, 6, 10, 13, 14, 15]),
    ("check file", &[0, 10, 11, 12, 1, 8, 13, 9, 14, 15]),
    ("writing start", &[0, 12, 1, 2, 3, 8, 7]),
    ("writing advance", &[0, 4, 3, 7]),
    ("plan", &[0, 1, 8, 6, 16]),
    ("plan: no leaves", &[0, 1]),
    ("compare", &[0, 12, 1, 8, 6, 10, 13]),
    ("compare: clash", &[0, 1]),
    ("edition checked", &[1, 2]),
    ("edition clashing", &[1, 2]),
    ("edition drawn", &[1, 2]),
    ("draw", &[0, 10, 11, 12, 1, 8, 13, 9, 14, 15, 16]),
];

/// How often each place answered each number.
static SEEN: Mutex<BTreeMap<(&str, u64), u64>> = Mutex::new(BTreeMap::new());

fn see(place: &'static str, number: u64) {
    *SEEN.lock().unwrap().entry((place, number)).or_default() += 1;
}

/// A refusal's number, to compare with the model's.
fn numbered<A>(place: &'static str, answer: Result<A, Refusal>) -> Result<A, u64> {
    let answer = answer.map_err(Refusal::number);
    see(place, answer.as_ref().err().copied().unwrap_or(0));
    answer
}

/// Refusal, labels and blocks as a call in C answers them. W-207: 'A run refused reports 0 of both.'
fn made_numbers(made: Result<Made, u64>) -> (u64, u64, u64) {
    match made {
        Ok(Made { labels, blocks }) => (0, labels, blocks),
        Err(refusal) => (refusal, 0, 0),
    }
}

/// Prints how often each number was seen, and fails if one of a row was not.
pub fn print_seen() {
    let seen = SEEN.lock().unwrap();
    let times = |place, number| seen.get(&(place, number)).copied().unwrap_or(0);
    for (place, numbers) in ROWS {
        let counts: Vec<String> = numbers.iter().map(|number| format!("{number}: {}", times(place, *number))).collect();
        println!("  {place:<16} {}", counts.join(", "));
    }
    for (place, numbers) in ROWS {
        assert!(numbers.iter().all(|number| times(place, *number) > 0), "{place}: a number was not seen");
    }
    assert!(seen.keys().all(|(place, _)| ROWS.iter().any(|row| row.0 == *place)), "a place is not in the table");
}

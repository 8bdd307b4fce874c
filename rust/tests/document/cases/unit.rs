use super::run::any_run;
use super::{made_numbers, new_run, numbered, see};
use crate::lent::Lent;
use crate::model::run::store_size;
use crate::model::tree::{size, Labels};
use crate::model::unit::{advance, checked, remaining, store_place};
use crate::random::Random;
use mastdock::{ffi, Made, Place, Run, Unit};
use std::array;

/// The names that stores are asked for: all that there are, and others.
pub const NAMES: [u64; 13] = [0, 1, 2, 3, 4, 5, 6, 7, 8, 9, 1 << 32, (1 << 32) + 1, u64::MAX];

/// The bytes of the stores of so many runs.
fn stores_size(runs: &[Run]) -> usize {
    runs.iter().map(|run| store_size(run.memory)).sum()
}

/// Where the stores lie, through Rust and through C.
pub fn places_of(unit: &Unit, store: &[u8]) -> u64 {
    for name in NAMES {
        let expected = store_place(unit, name, store.len());
        see("unit store place", u64::from(expected.length > 0));
        assert_eq!(unit.store_place(name, store), expected);
        assert_eq!(unit.store_part(name, store), &store[expected.offset..][..expected.length]);
        // SAFETY: pointer and length are a slice's, and every state is allowed.
        let place = unsafe { ffi::mastdock_unit_store_place(unit.clone(), name, store.as_ptr(), store.len()) };
        assert_eq!(place, expected);
    }
    2 * NAMES.len() as u64
}

/// What the request says of every call that is not refused, from the unit before it and the library's after it.
fn claims(before: &Unit, after: &Unit, budget: u64, made: Made) {
    let count = before.count as usize;
    let (old, new) = (&before.runs[..count], &after.runs[..count]);
    // 'The number of labels made is the smaller of the budget and all that remain.'
    assert_eq!(made.labels, budget.min(old.iter().map(remaining).sum()));
    let got: Vec<u64> = old.iter().zip(new).map(|(old, new)| new.made - old.made).collect();
    assert_eq!(got.iter().sum::<u64>(), made.labels);
    // 'If no run finishes in a call, the numbers of labels got by those unfinished at its start differ by at most one.'
    let unfinished: Vec<usize> = (0..count).filter(|at| remaining(&old[*at]) > 0).collect();
    if unfinished.iter().all(|at| remaining(&new[*at]) > 0) {
        let most = unfinished.iter().map(|at| got[*at]).max().unwrap_or(0);
        assert!(unfinished.iter().all(|at| got[*at] + 1 >= most));
        see("unit runs ending", if unfinished.is_empty() { 2 } else { 0 });
    } else {
        see("unit runs ending", 1);
    }
    // the last label is of the run that is named, and the name stays where none is made
    match made.labels {
        0 => assert_eq!(after, before),
        _ => assert!(got[after.last as usize - 1] > 0),
    }
    assert_eq!((after.count, &after.runs[count..]), (before.count, &before.runs[count..]));
}

/// One call on a unit and its slice, through Rust and through C. Gives whether it was refused.
pub fn advance_both(random: &mut Random, unit: &mut Unit, budget: u64, store: &mut [u8]) -> bool {
    let (mut lent, mut again) = (Lent::bytes(random, store), Lent::bytes(random, store));
    let (before, mut model) = (unit.clone(), unit.clone());
    let to = again.get();
    // SAFETY: pointer and length are a slice's, which is borrowed alone, and every state is allowed.
    let advanced = unsafe { ffi::mastdock_unit_advance(unit.clone(), budget, to.as_mut_ptr(), to.len()) };
    let expected = advance(&mut model, budget, store);
    match expected {
        Ok(_) => see("unit runs served", unit.count),
        Err(refused) if refused.number == 4 => see("unit 4 in run", refused.run),
        Err(refused) if refused.number == 3 => see("unit 3 in run", refused.run),
        Err(_) => {}
    }
    let expected = expected.map_err(|refused| refused.number);
    assert_eq!(numbered("unit advance", unit.advance(budget, lent.get())), expected);
    assert_eq!((advanced.refusal, advanced.labels, advanced.blocks), made_numbers(expected));
    assert!(advanced.unit == model && *unit == model, "a unit differs from the model's");
    lent.is_now(store);
    again.is_now(store);
    match expected {
        Ok(made) => claims(&before, unit, budget, made),
        Err(_) => assert!(*unit == before, "a refused unit was changed"),
    }
    expected.is_err()
}

/// A unit of so many runs, with something in the places beyond them.
pub fn unit_of(random: &mut Random, last: u64, runs: &[Run]) -> Unit {
    let all = array::from_fn(|at| runs.get(at).cloned().unwrap_or_else(|| any_run(random, 3, 1)));
    Unit { count: runs.len() as u64, last, runs: all }
}

/// New runs, each with its own edition, statement, depth and memory level.
fn new_runs(random: &mut Random, deepest: u64) -> Vec<Run> {
    let count = random.between(1, 8);
    (0..count)
        .map(|_| {
            let (edition, statement, n) = (random.between(1, 2), random.array(), random.between(1, deepest));
            let m = random.below(n + 1);
            new_run(edition, &statement, n, m, &vec![0; store_size(m)])
        })
        .collect()
}

/// 'Each run's root and store are those it would have alone', and the bytes behind the last store are as they were.
fn ends_alone(unit: &Unit, old: &[u8], store: &[u8]) {
    let mut at = 0;
    for (name, run) in (1..=unit.count).zip(&unit.runs) {
        let labels = Labels::of(run.edition, run.statement, run.depth);
        assert_eq!(run.root(), Some(labels.root()));
        assert_eq!(unit.store_part(name, store), labels.store(run.memory));
        assert_eq!(unit.store_place(name, store), Place { offset: at, length: store_size(run.memory) });
        at += store_size(run.memory);
    }
    assert_eq!(store[at..], old[at..]);
}

/// New runs to their ends by calls with budgets, name and runs handed on.
pub fn whole(random: &mut Random) -> u64 {
    let runs = new_runs(random, 6);
    let beyond = random.below(50) as usize;
    let mut store = random.bytes(stores_size(&runs) + beyond);
    let old = store.clone();
    let last = random.between(1, runs.len() as u64);
    let mut unit = unit_of(random, last, &runs);
    let most = random.pick(&[10, 100, 1000]);
    let mut calls = 0;
    while unit.runs[..runs.len()].iter().any(|run| remaining(run) > 0) {
        let budget = if random.once_in(20) { random.pick(&[7, 8, 9, 1 << 41, u64::MAX]) } else { random.below(most) };
        assert!(!advance_both(random, &mut unit, budget, &mut store));
        calls += 2;
    }
    // a unit that is finished makes nothing more
    advance_both(random, &mut unit, u64::MAX, &mut store);
    ends_alone(&unit, &old, &store);
    calls + 2
}

/// Label by label. 'Between two labels of an unfinished run the others together make at most 7 while that name and the runs are handed
/// on as handed back.' So too before its first.
pub fn label_by_label(random: &mut Random) -> u64 {
    let runs = new_runs(random, 3);
    let mut store = random.bytes(stores_size(&runs));
    let old = store.clone();
    let last = random.between(1, runs.len() as u64);
    let mut unit = unit_of(random, last, &runs);
    let (mut waited, mut calls) = ([0; 8], 0);
    while unit.runs[..runs.len()].iter().any(|run| remaining(run) > 0) {
        let before = unit.clone();
        advance_both(random, &mut unit, 1, &mut store);
        calls += 2;
        for (at, waited) in waited.iter_mut().enumerate().take(runs.len()) {
            let got = unit.runs[at].made - before.runs[at].made;
            assert_eq!(got == 1, unit.last == at as u64 + 1);
            *waited = if got == 1 { 0 } else { *waited + 1 };
            assert!(*waited < runs.len() || remaining(&unit.runs[at]) == 0);
        }
    }
    ends_alone(&unit, &old, &store);
    calls
}

/// Runs in any state, of which one is impossible now and then.
fn any_runs(random: &mut Random, deepest: u64) -> Vec<Run> {
    let count = random.between(1, 8) as usize;
    let bad = if random.once_in(3) { random.below(count as u64) as usize } else { count };
    (0..count)
        .map(|at| {
            let n = random.between(1, deepest);
            let m = random.below(n.min(5) + 1);
            possible_run(random, at != bad, n, m)
        })
        .collect()
}

/// A run in any state that a call may continue, or one that is impossible in one of its four numbers.
fn possible_run(random: &mut Random, possible: bool, n: u64, m: u64) -> Run {
    let mut run = any_run(random, n, m);
    run.edition = random.between(1, 2);
    run.made = if random.once_in(3) { size(n) - random.below(4) } else { run.made.min(size(n)) };
    if !possible {
        match random.below(4) {
            0 => run.edition = random.pick(&[0, 3, 4, (1 << 32) + 1, u64::MAX]),
            1 => run.depth = random.pick(&[0, 41, 64, (1 << 32) + n, u64::MAX]),
            2 => run.memory = random.pick(&[n + 1, 15, 20, 64, u64::MAX]).max(n.min(14) + 1),
            _ => run.made = size(n) + random.pick(&[1, 2, 1 << 41]),
        }
    }
    run
}

/// A slice long enough, a byte short at the end of one of the stores, or any other; what an impossible run would need is not asked.
fn slice_for(random: &mut Random, runs: &[Run]) -> Vec<u8> {
    let ends: Vec<usize> = runs
        .iter()
        .scan(0, |end, run| {
            *end += store_size(run.memory.min(14));
            Some((*end).min(1 << 16))
        })
        .collect();
    let all = ends[ends.len() - 1];
    let len = match random.below(6) {
        0 => random.pick(&ends) - 1,
        1 => random.pick(&ends),
        2 => random.below(all as u64 + 1) as usize,
        3 => all + random.below(100) as usize,
        _ => all,
    };
    random.bytes(len)
}

/// A count and a name, refused now and then.
fn count_and_name(random: &mut Random, count: u64) -> (u64, u64) {
    let name = random.between(1, count);
    let name = match random.once_in(6) {
        true => random.pick(&[0, 1, count, count + 1, 8, 9, (1 << 32) + name, 1 << 32, u64::MAX]),
        false => name,
    };
    (if random.once_in(12) { random.pick(&[0, 9, 10, 64, (1 << 32) + count, u64::MAX]) } else { count }, name)
}

/// A budget for a unit: a huge one only where it ends soon.
fn budget_for(random: &mut Random, unit: &Unit, len: usize) -> u64 {
    let left = match checked(unit, len) {
        Ok(places) => unit.runs[..places.len()].iter().map(remaining).sum(),
        Err(_) => 0,
    };
    match random.below(4) {
        0 => random.pick(&[0, 1, 7, 8, 9, 16]),
        1 if left < 500 => random.pick(&[left.saturating_sub(1), left, left + 1, 1 << 32, 1 << 63, u64::MAX]),
        _ => random.below(30),
    }
}

/// Units in any state, some calls one after another with name and runs handed on, and where the stores lie before and after.
pub fn any_state(random: &mut Random) -> u64 {
    let deepest = random.pick(&[2, 4, 40]);
    let runs = any_runs(random, deepest);
    let mut store = slice_for(random, &runs);
    let (count, name) = count_and_name(random, runs.len() as u64);
    let mut unit = Unit { count, ..unit_of(random, name, &runs) };
    let mut calls = places_of(&unit, &store);
    for _ in 0..random.between(1, 4) {
        let budget = budget_for(random, &unit, store.len());
        calls += 2;
        if advance_both(random, &mut unit, budget, &mut store) {
            return calls;
        }
    }
    calls + places_of(&unit, &store)
}

/// Stores of memory level 14, the greatest, of two to four runs: enough, and one byte short.
pub fn largest_stores(random: &mut Random) -> u64 {
    let count = random.between(2, 4);
    let runs: Vec<Run> = (0..count)
        .map(|_| {
            let n = random.between(14, 40);
            possible_run(random, true, n, 14)
        })
        .collect();
    let mut store = vec![0; stores_size(&runs)];
    let last = random.between(1, count);
    let mut unit = unit_of(random, last, &runs);
    let short = store.len() - 1;
    assert!(advance_both(random, &mut unit, 9, &mut store[..short]));
    assert!(!advance_both(random, &mut unit, 9, &mut store));
    4 + places_of(&unit, &store[..short]) + places_of(&unit, &store)
}

//! W-208, edges: which run is served next by hand, every small unit, numbers of runs and names, and which refusal comes first.
use crate::cases::{advance_unit, new_run, places_of};
use crate::model::run::store_size;
use crate::random::Random;
use mastdock::{ffi, Made, Place, Refusal, Run, Unit, MAX_RUNS};
use std::array;

pub fn run() {
    let mut random = Random::of_case(208, 0, 0);
    assert_eq!(MAX_RUNS, 8);
    turns();
    alone();
    small(&mut random);
    names(&mut random);
    first_refusal();
    each_short(&mut random);
    nothing_lent();
}

fn run_of(edition: u64, depth: u64, memory: u64, made: u64) -> Run {
    Run { statement: [208; 32], edition, depth, memory, made, held: [7; 1312] }
}

/// Places beyond the runs have other numbers than a run has.
fn unit_of(last: u64, runs: &[Run]) -> Unit {
    let beyond = run_of(9, 99, 99, 99);
    Unit { count: runs.len() as u64, last, runs: array::from_fn(|at| runs.get(at).unwrap_or(&beyond).clone()) }
}

fn made_of(unit: &Unit) -> Vec<u64> {
    unit.runs[..unit.count as usize].iter().map(|run| run.made).collect()
}

/// 'beginning after the run named as served last', 'finished runs are passed over', 'the call hands back that name as it now is': the
/// labels made of each run and the name after a call.
fn turns() {
    let new = |made: &[u64]| made.iter().map(|made| run_of(2, 1, 0, *made)).collect::<Vec<Run>>();
    for (made, last, budget, after, name) in [
        (&[0, 0, 0][..], 3, 1, &[1, 0, 0][..], 1),
        (&[0, 0, 0], 1, 1, &[0, 1, 0], 2),
        (&[0, 0, 0], 2, 1, &[0, 0, 1], 3),
        (&[0, 0, 0], 2, 4, &[1, 1, 2], 3),
        (&[0, 0, 0], 2, 0, &[0, 0, 0], 2),
        (&[0, 3, 0], 1, 1, &[0, 3, 1], 3),
        (&[0, 3, 0], 2, 2, &[1, 3, 1], 1),
        (&[3, 3, 0], 3, 2, &[3, 3, 2], 3),
        (&[3, 3, 0], 1, 2, &[3, 3, 2], 3),
        (&[2, 0, 0], 3, 5, &[3, 2, 2], 3),
        (&[3, 3, 3], 2, 9, &[3, 3, 3], 2),
        (&[0], 1, 2, &[2], 1),
        (&[0, 1, 2], 3, u64::MAX, &[3, 3, 3], 1),
    ] {
        let mut unit = unit_of(last, &new(made));
        let labels = after.iter().sum::<u64>() - made.iter().sum::<u64>();
        assert_eq!(unit.advance(budget, &mut vec![0; 32 * made.len()]).map(|made| made.labels), Ok(labels));
        assert_eq!((made_of(&unit), unit.last), (after.to_vec(), name));
    }
}

/// 'Each run's root and store are those it would have alone': eight runs in one unit, and each by itself.
fn alone() {
    let runs: Vec<Run> = (1..=8u64).map(|i| new_run(1 + i % 2, &[i as u8; 32], 1 + i % 5, i % 2, &[0; 96])).collect();
    let len: usize = runs.iter().map(|run| store_size(run.memory)).sum();
    let mut store = vec![90; len + 1];
    let mut unit = unit_of(8, &runs);
    while unit.advance(5, &mut store).unwrap().labels > 0 {}
    for (i, mut run) in (1..).zip(runs) {
        let mut own = vec![90; store_size(run.memory)];
        assert!(run.advance(u64::MAX, &mut own).is_ok());
        assert_eq!((&unit.runs[i as usize - 1], unit.store_part(i, &store)), (&run, &own[..]));
    }
    assert_eq!(store[len], 90);
}

/// Every unit of one to three runs, each new, under way or finished, with every name, and every budget up to one more than remains.
fn small(random: &mut Random) {
    let states = [(1, 1, 1, 0), (2, 1, 0, 2), (2, 1, 1, 3), (1, 2, 1, 5)].map(|(e, n, m, k)| run_of(e, n, m, k));
    for count in 1..=3u32 {
        for choice in 0..4usize.pow(count) {
            let runs: Vec<Run> = (0..count).map(|at| states[choice / 4usize.pow(at) % 4].clone()).collect();
            let len: usize = runs.iter().map(|run| store_size(run.memory)).sum();
            for last in 1..=u64::from(count) {
                for budget in (0..=10).chain([u64::MAX]) {
                    assert!(!advance_unit(random, &mut unit_of(last, &runs), budget, &mut vec![5; len]));
                }
            }
        }
    }
}

/// '21, not 1 to 8 runs, or the run named as served last not among them', whatever the runs are and however short the slice is.
fn names(random: &mut Random) {
    let numbers = (0..=10).chain([1 << 32, (1 << 32) + 1, u64::MAX]);
    for (count, last) in numbers.clone().flat_map(|count| numbers.clone().map(move |last| (count, last))) {
        let refused = !(1..=8).contains(&count) || last < 1 || count < last;
        for (run, len) in [(run_of(1, 1, 0, 0), 256), (run_of(3, 41, 42, u64::MAX), 0)] {
            let mut unit = Unit { count, last, runs: array::from_fn(|_| run.clone()) };
            let mut store = vec![5; len];
            let answer = unit.clone().advance(3, &mut store.clone());
            assert_eq!(answer == Err(Refusal::Runs), refused);
            assert_eq!(advance_unit(random, &mut unit, 3, &mut store), refused || len == 0);
            places_of(&unit, &store);
        }
    }
}

/// What a call is refused with.
fn refusal(runs: &[Run], len: usize) -> Option<Refusal> {
    unit_of(1, runs).advance(3, &mut vec![0; len]).err()
}

/// 'then each run in order as when continued': 4 and 3 of a run before those of the next one.
fn first_refusal() {
    let [a, b, c] = [run_of(1, 2, 1, 0), run_of(2, 3, 1, 4), run_of(1, 2, 2, 0)];
    let bad = |run: &Run| Run { made: u64::MAX, ..run.clone() };
    let none = |edition, run: &Run| Run { edition, ..run.clone() };
    assert_eq!(refusal(&[a.clone(), b.clone(), bad(&c)], 191), Some(Refusal::ShortStore));
    assert_eq!(refusal(&[a.clone(), b.clone(), bad(&c)], 192), Some(Refusal::State));
    assert_eq!(refusal(&[a.clone(), bad(&b), c.clone()], 415), Some(Refusal::State));
    assert_eq!(refusal(&[a.clone(), bad(&b), c.clone()], 96), Some(Refusal::State));
    assert_eq!(refusal(&[a.clone(), bad(&b), c.clone()], 95), Some(Refusal::ShortStore));
    assert_eq!(refusal(&[bad(&a), bad(&b), bad(&c)], 0), Some(Refusal::State));
    for edition in [0, 3, (1 << 32) + 1, u64::MAX] {
        assert_eq!(refusal(&[a.clone(), b.clone(), none(edition, &c)], 416), Some(Refusal::State));
        assert_eq!(refusal(&[none(edition, &a), b.clone(), c.clone()], 0), Some(Refusal::State));
    }
    assert_eq!(refusal(&[a, b, c], 416), None);
}

/// Each store in turn a byte short, of one to eight runs: 3, nothing is changed, and the stores before it lie where they did.
fn each_short(random: &mut Random) {
    let runs: Vec<Run> = (1..=8).map(|i| run_of(1 + i % 2, 1 + i % 4, i % 2, i % 3)).collect();
    let mut end = 0;
    for (i, run) in (1..).zip(&runs) {
        let begin = end;
        end += store_size(run.memory);
        for count in i..=8 {
            let (mut unit, mut store) = (unit_of(1, &runs[..count]), vec![5; end - 1]);
            assert_eq!(unit.clone().advance(3, &mut store.clone()), Err(Refusal::ShortStore));
            assert!(advance_unit(random, &mut unit, 3, &mut store));
            let place = Place { offset: begin, length: end - begin };
            assert_eq!(unit.store_place(i as u64, &store), Place { offset: 0, length: 0 });
            assert_eq!(unit.store_place(i as u64, &vec![5; end]), place);
            places_of(&unit, &store);
        }
        let mut unit = unit_of(1, &runs[..i]);
        assert_eq!(unit.advance(0, &mut vec![5; end]), Ok(Made::default()));
    }
}

/// Null pointers, where the number of bytes is 0.
fn nothing_lent() {
    for (unit, refusal) in
        [(unit_of(1, &[]), 21), (unit_of(0, &[run_of(1, 1, 0, 0)]), 21), (unit_of(1, &[run_of(1, 1, 0, 0)]), 3)]
    {
        // SAFETY: no byte is lent.
        let advanced = unsafe { ffi::mastdock_unit_advance(unit.clone(), 3, std::ptr::null_mut(), 0) };
        assert_eq!((advanced.refusal, advanced.labels, advanced.blocks), (refusal, 0, 0));
        assert!(advanced.unit == unit);
        // SAFETY: no byte is lent.
        let place = unsafe { ffi::mastdock_unit_store_place(unit, 1, std::ptr::null(), 0) };
        assert_eq!(place, Place { offset: 0, length: 0 });
    }
}

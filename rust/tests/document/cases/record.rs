use super::numbered;
use super::run::{any_run, level_or_edge, new_run, NO_RUN};
use crate::lent::Lent;
use crate::model::file::groups;
use crate::model::record::{read, record_of, tidy, write};
use crate::model::run::{impossible, store_size};
use crate::model::tree::{size, Labels};
use crate::random::Random;
use mastdock::{ffi, Run, MAX_RECORD};

/// A depth and a memory level, refused now and then.
fn levels(random: &mut Random) -> (u64, u64) {
    let n = random.between(1, 40);
    let m = random.below(n.min(14) + 1);
    let n = random.or_edge(n, 40);
    (n, level_or_edge(random, n, m))
}

/// A run that can be continued, with something in every place.
fn possible_run(random: &mut Random, deepest: u64, most: u64) -> Run {
    let n = random.between(1, deepest);
    let m = random.below(n.min(most) + 1);
    let mut run = any_run(random, n, m);
    run.edition = random.between(1, 2);
    run.made = run.made.min(size(n));
    run
}

/// A run written over bytes that held something else, through Rust and through C.
fn record_both(random: &mut Random, run: &Run, out: &mut [u8]) -> Result<usize, u64> {
    let (mut lent, mut again) = (Lent::bytes(random, out), Lent::bytes(random, out));
    let expected = write(run, out);
    assert_eq!(numbered("run record", run.record(lent.get())), expected);
    lent.is_now(out);
    let to = again.get();
    // SAFETY: pointer and length are a slice's, which is borrowed alone, and every state is allowed.
    let recorded = unsafe { ffi::mastdock_run_record(run.clone(), to.as_mut_ptr(), to.len()) };
    assert_eq!((recorded.refusal, recorded.size), expected.map_or_else(|refusal| (refusal, 0), |size| (0, size)));
    again.is_now(out);
    expected
}

/// Bytes read as a record, through Rust and through C. What is read has just these bytes as its record, so no other bytes give it.
pub fn resume_both(random: &mut Random, bytes: &[u8]) -> Result<Run, u64> {
    let mut lent = Lent::bytes(random, bytes);
    let expected = read(bytes);
    assert_eq!(numbered("run resume", Run::resume(lent.get())), expected);
    lent.is_now(bytes);
    // SAFETY: pointer and length are a slice's.
    let started = unsafe { ffi::mastdock_run_resume(bytes.as_ptr(), bytes.len()) };
    assert_eq!(started.refusal, expected.as_ref().err().copied().unwrap_or(0));
    assert_eq!(started.run, expected.clone().unwrap_or(NO_RUN));
    if let Ok(run) = &expected {
        let mut out = [0; MAX_RECORD];
        assert_eq!(run.record(&mut out), Ok(bytes.len()));
        assert_eq!(out[..bytes.len()], *bytes);
    }
    expected
}

/// The run paused: written out and read back, which gives it with its other places zero.
pub fn pause(random: &mut Random, run: &Run) -> Run {
    let mut out = random.bytes(MAX_RECORD);
    let size = record_both(random, run, &mut out).unwrap();
    let resumed = resume_both(random, &out[..size]).unwrap();
    assert_eq!(resumed, tidy(run));
    resumed
}

pub fn written(random: &mut Random) -> u64 {
    let (n, m) = levels(random);
    let run = any_run(random, n, m);
    let size = if impossible(run.edition, n, m, run.made) { MAX_RECORD } else { record_of(&run).len() };
    let len = random.near(size);
    let mut out = random.bytes(len);
    match record_both(random, &run, &mut out) {
        Err(_) => 2,
        Ok(size) => {
            assert_eq!(resume_both(random, &out[..size]), Ok(tidy(&run)));
            5
        }
    }
}

/// A record's numbers that are right, or not: an edge for one of them, one in a longer form, or any bytes.
fn numbers(random: &mut Random, run: &Run) -> Vec<u8> {
    let mut values = [run.edition, run.depth, run.memory, run.made];
    let which = random.below(4) as usize;
    match random.below(4) {
        0 => {
            let highest = [2, 40, 14, size(run.depth)][which];
            values[which] = random.or_edge(highest + 1, highest);
            values.map(groups).concat()
        }
        1 => {
            let mut forms = values.map(groups);
            *forms[which].last_mut().unwrap() += 128;
            let more = random.below(7) as usize;
            forms[which].extend(vec![128; more]);
            forms[which].push(random.pick(&[0, 1]));
            forms.concat()
        }
        2 => {
            let len = random.below(14) as usize;
            (0..len).map(|_| random.pick(&[0, 1, 1, 2, 3, 5, 14, 15, 40, 41, 127, 128, 129, 200, 255])).collect()
        }
        _ => values.map(groups).concat(),
    }
}

/// The kinds of changes that `changed` makes, from 0, which is none.
const CHANGES: u64 = 7;

/// A record changed in one of several ways.
fn changed(random: &mut Random, run: &Run, change: u64) -> Vec<u8> {
    let mut bytes = record_of(run);
    let rest = bytes.split_off([run.edition, run.depth, run.memory, run.made].map(groups).concat().len());
    match change {
        0 => [bytes, rest].concat(),
        1 => {
            bytes.extend(rest);
            random.damage(&mut bytes);
            bytes
        }
        2 => {
            random.damage(&mut bytes);
            [bytes, rest].concat()
        }
        3 => {
            let len = random.near(bytes.len() + rest.len());
            bytes.extend(rest);
            bytes.resize(len, 0);
            bytes
        }
        4 => [numbers(random, run), rest].concat(),
        5 => {
            // Numbers of another run of this depth before the labels of this one.
            let other = any_run(random, run.depth, run.memory);
            [[run.edition, run.depth, run.memory, other.made].map(groups).concat(), rest].concat()
        }
        _ => {
            let len = random.pick(&[0, 1, 32, 64, 96, 1344, 1345]);
            [numbers(random, run), random.bytes(len)].concat()
        }
    }
}

pub fn any_bytes(random: &mut Random) -> u64 {
    let run = possible_run(random, 40, 14);
    for change in 0..CHANGES {
        let bytes = changed(random, &run, change);
        let answer = resume_both(random, &bytes);
        assert!(change > 0 || answer == Ok(tidy(&run)));
    }
    2 * CHANGES
}

/// 'A run paused after any label and resumed must end with the same root and store as one never paused, given the same store.'
pub fn whole(random: &mut Random) -> u64 {
    let (edition, statement) = (random.between(1, 2), random.array());
    let n = random.between(1, 8);
    let m = random.below(n + 1);
    let beyond = random.below(50) as usize;
    let mut store = random.bytes(store_size(m) + beyond);
    let mut never_paused = store.clone();
    let mut run = new_run(edition, &statement, n, m, &store);
    let mut end = run.clone();
    let all = end.advance(u64::MAX, &mut never_paused).unwrap();
    assert_eq!(all.labels, size(n));
    let most = random.pick(&[2, 10, 100, 1000]);
    let (mut calls, mut blocks) = (0, 0);
    while run.made < size(n) {
        let budget = random.below(most);
        run = pause(random, &run);
        blocks += run.advance(budget, &mut store).unwrap().blocks;
        calls += 4;
    }
    assert_eq!(pause(random, &run), end);
    assert_eq!(run.root(), Some(Labels::of(edition, statement, n).root()));
    assert!(store == never_paused);
    assert_eq!(blocks, all.blocks);
    calls + 4
}

/// A run with something in every place goes on, from its record too, as if the places that hold no label were zero.
pub fn goes_on(random: &mut Random) -> u64 {
    let mut run = possible_run(random, 40, 5);
    let mut store = random.bytes(store_size(run.memory));
    let mut again = store.clone();
    let mut resumed = pause(random, &run);
    let budget = random.below(6);
    assert_eq!(resumed.advance(budget, &mut again), run.advance(budget, &mut store));
    assert_eq!((tidy(&resumed), again), (tidy(&run), store));
    6
}

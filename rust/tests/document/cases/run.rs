use super::{made_numbers, numbered};
use crate::lent::Lent;
use crate::model::run::{advance, start, store_size};
use crate::model::tree::{place_in_order, size, Labels, Node};
use crate::model::{depth_refused, memory_refused, Label};
use crate::random::Random;
use mastdock::{ffi, Run};

/// What stands beside a refused start, and a record refused.
pub const NO_RUN: Run = Run { statement: [0; 32], edition: 0, depth: 0, memory: 0, made: 0, held: [0; 1312] };

/// A depth and a memory level, refused now and then, and a store near the size for it.
pub fn level_and_store(random: &mut Random, deepest: u64, most: u64) -> (u64, u64, Vec<u8>) {
    let n = random.between(1, deepest);
    let m = random.below(n.min(most) + 1);
    let len = random.near(store_size(m));
    let store = random.bytes(len);
    let n = random.or_edge(n, 40);
    (n, level_or_edge(random, n, m), store)
}

/// A memory level that is wanted, or an edge.
pub fn level_or_edge(random: &mut Random, n: u64, m: u64) -> u64 {
    if random.once_in(8) {
        random.pick(&[n.wrapping_add(1), 14, 15, 20, 21, 64, u64::MAX])
    } else {
        m
    }
}

pub fn starts(random: &mut Random) -> u64 {
    let statement = random.array();
    let (n, m, store) = level_and_store(random, 40, 6);
    let mut lent = Lent::bytes(random, &store);
    let expected = start(&statement, n, m, &store);
    assert_eq!(numbered("run start", Run::start(&statement, n, m, lent.get())), expected);
    lent.is_now(&store);
    // SAFETY: pointers and length are those of a reference and a slice.
    let started = unsafe { ffi::mastdock_run_start(&statement, n, m, store.as_ptr(), store.len()) };
    assert_eq!(started.run, expected.unwrap_or(NO_RUN));
    2
}

/// One call on a run and its store, through Rust and through C.
fn advance_both(random: &mut Random, run: &mut Run, budget: u64, store: &mut [u8]) {
    let (mut lent, mut again) = (Lent::bytes(random, store), Lent::bytes(random, store));
    let mut model = run.clone();
    let to = again.get();
    // SAFETY: pointer and length are a slice's, which is borrowed alone, and every state is allowed.
    let advanced = unsafe { ffi::mastdock_run_advance(run.clone(), budget, to.as_mut_ptr(), to.len()) };
    let expected = advance(&mut model, budget, store);
    assert_eq!(numbered("run advance", run.advance(budget, lent.get())), expected);
    assert_eq!((advanced.refusal, advanced.labels, advanced.blocks), made_numbers(expected));
    assert_eq!((&advanced.run, &*run), (&model, &model));
    lent.is_now(store);
    again.is_now(store);
}

/// A new run of an edition: of edition 2 by a start, of edition 1 by a record of it, since 'New runs write 2' (W-206).
pub fn new_run(edition: u64, statement: &Label, n: u64, m: u64, store: &[u8]) -> Run {
    let run = match edition {
        1 => Run::resume(&[&[1, n as u8, m as u8, 0][..], statement].concat()).unwrap(),
        _ => Run::start(statement, n, m, store).unwrap(),
    };
    assert_eq!((run.edition, run.made, run.held), (edition, 0, [0; 1312]));
    run
}

pub fn whole(random: &mut Random) -> u64 {
    let (edition, statement) = (random.between(1, 2), random.array());
    let n = random.between(1, 8);
    let m = random.below(n + 1);
    let beyond = random.below(50) as usize;
    let mut store = random.bytes(store_size(m) + beyond);
    let old = store.clone();
    let mut run = new_run(edition, &statement, n, m, &store);
    let most = random.pick(&[2, 10, 100, 1000]);
    let mut calls = 0;
    while run.made < size(n) {
        assert_eq!(run.root(), None);
        let budget = random.below(most);
        advance_both(random, &mut run, budget, &mut store);
        calls += 2;
    }
    // 'Budget 0 and a finished run change nothing.'
    let done = run.clone();
    advance_both(random, &mut run, 5, &mut store);
    assert_eq!(run, done);
    let labels = Labels::of(edition, statement, n);
    assert_eq!((run.edition, run.root()), (edition, Some(labels.root())));
    assert_eq!(store, [labels.store(m), old[store_size(m)..].to_vec()].concat());
    calls + 2
}

/// Labels made, of so many: any, near the end, or so that a node of a stored level is next.
fn made(random: &mut Random, n: u64, m: u64) -> u64 {
    match random.below(4) {
        0 => size(n) - random.below(6).min(size(n)),
        1 => random.below(size(n) + 1),
        _ => {
            let level = random.below(m + 1);
            let position = random.below(1 << level);
            place_in_order(n, Node::at(level, position))
        }
    }
}

/// A run of this depth and memory level in any state, with an edition that does not exist or more labels made than there are now and then,
/// and something in every place.
pub fn any_run(random: &mut Random, n: u64, m: u64) -> Run {
    let possible = !depth_refused(n) && !memory_refused(n, m);
    let made = match random.once_in(10) {
        true => random.wide(),
        false if possible => made(random, n, m),
        false => random.wide(),
    };
    let over = possible && random.once_in(10);
    Run {
        statement: random.array(),
        edition: random.edition(),
        depth: n,
        memory: m,
        made: if over { size(n) + random.below(3) } else { made },
        held: random.array(),
    }
}

pub fn any_state(random: &mut Random) -> u64 {
    let (n, m, mut store) = level_and_store(random, 40, 5);
    let mut run = any_run(random, n, m);
    let budget = random.below(6);
    advance_both(random, &mut run, budget, &mut store);
    2
}

/// Memory level 14, the greatest: enough, and one byte short.
pub fn largest_store(random: &mut Random) -> u64 {
    let statement = random.array();
    let n = random.between(14, 40);
    let mut store = vec![0; 1048544];
    let short = store.len() - 1;
    assert_eq!(numbered("run start", Run::start(&statement, n, 14, &store[..short])), Err(3));
    let mut run = new_run(random.between(1, 2), &statement, n, 14, &store);
    let position = random.below(1 << 14);
    run.made = place_in_order(n, Node::at(14, position));
    run.held = random.array();
    let mut model = run.clone();
    let mut expected = store.clone();
    assert_eq!(numbered("run advance", run.advance(1, &mut store[..short])), Err(3));
    assert_eq!(run, model);
    assert_eq!(numbered("run advance", run.advance(3, &mut store)), advance(&mut model, 3, &mut expected));
    assert_eq!(run, model);
    assert!(store == expected);
    4
}

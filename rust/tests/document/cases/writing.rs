use super::file::proof_file;
use super::opening::{leaf_of, NO_OPENING};
use super::run::level_and_store;
use super::{made_numbers, numbered};
use crate::lent::Lent;
use crate::model::file::file_size;
use crate::model::opening::nodes_anew;
use crate::model::run::store_size;
use crate::model::tree::Labels;
use crate::model::writing::{advance, start};
use crate::model::{depth_refused, memory_refused};
use crate::random::Random;
use mastdock::{ffi, Opening, Writing};

/// What stands beside a refused start.
const NO_WRITING: Writing = Writing { root: [0; 32], count: 0, number: 0, opening: NO_OPENING };

/// A count, refused now and then, and a file near the size for it.
fn count_and_file(random: &mut Random, n: u64) -> (u64, Vec<u8>) {
    let most = random.pick(&[1, 3, 10, 200]);
    let t = random.between(1, most);
    let len = random.near(file_size(n.clamp(1, 40), t));
    (random.or_edge(t, 200), random.bytes(len))
}

pub fn starts(random: &mut Random) -> u64 {
    let (edition, statement, root) = (random.edition(), random.array(), random.array());
    let (n, m, store) = level_and_store(random, 40, 5);
    let n = if random.once_in(3) && m >= 1 { m } else { n };
    let (t, mut file) = count_and_file(random, n);
    let (mut lent_store, mut lent_file) = (Lent::bytes(random, &store), Lent::bytes(random, &file));
    let mut again = file.clone();
    let expected = start(edition, &statement, &root, n, m, t, &store, &mut file);
    let answer = Writing::start(edition, &statement, &root, n, m, t, lent_store.get(), lent_file.get());
    assert_eq!(numbered("writing start", answer), expected);
    lent_store.is_now(&store);
    lent_file.is_now(&file);
    // SAFETY: pointers and lengths are those of references and slices; the file is borrowed alone.
    let started = unsafe {
        let (from, len) = (store.as_ptr(), store.len());
        ffi::mastdock_writing_start(edition, &statement, &root, n, m, t, from, len, again.as_mut_ptr(), again.len())
    };
    assert_eq!(started.writing, expected.unwrap_or(NO_WRITING));
    2
}

/// One call on a writing and its file, through Rust and through C.
fn advance_both(random: &mut Random, writing: &mut Writing, budget: u64, store: &[u8], file: &mut [u8]) {
    let (mut lent_store, mut lent_file) = (Lent::bytes(random, store), Lent::bytes(random, file));
    let (mut model, mut again) = (writing.clone(), Lent::bytes(random, file));
    // SAFETY: pointers and lengths are those of slices; the file is borrowed alone; every state is allowed.
    let advanced = unsafe {
        let (from, from_len, to) = (store.as_ptr(), store.len(), again.get());
        ffi::mastdock_writing_advance(writing.clone(), budget, from, from_len, to.as_mut_ptr(), to.len())
    };
    let expected = advance(&mut model, budget, store, file);
    let answer = writing.advance(budget, lent_store.get(), lent_file.get());
    assert_eq!(numbered("writing advance", answer), expected);
    assert_eq!((advanced.refusal, advanced.labels, advanced.blocks), made_numbers(expected));
    assert_eq!((&advanced.writing, &*writing), (&model, &model));
    lent_store.is_now(store);
    lent_file.is_now(file);
    again.is_now(file);
}

pub fn whole(random: &mut Random) -> u64 {
    let n = random.between(1, 6);
    let m = random.below(n + 1);
    let most = random.pick(&[1, 3, 10, 130]);
    let t = random.between(1, most);
    let labels = Labels::of(random.between(1, 2), random.array(), n);
    let store = labels.store(m);
    let beyond = random.below(40) as usize;
    let mut file = random.bytes(file_size(n, t) + beyond);
    let old = file.clone();
    let (edition, statement, root) = (labels.edition, labels.statement, labels.root());
    let mut writing = Writing::start(edition, &statement, &root, n, m, t, &store, &mut file).unwrap();
    let most = random.pick(&[20, 100, 1000]);
    let mut left = t * nodes_anew(n, m);
    let mut calls = 0;
    while left > 0 {
        assert!(!writing.is_done());
        let budget = random.below(most);
        advance_both(random, &mut writing, budget, &store, &mut file);
        left -= budget.min(left);
        calls += 2;
    }
    assert!(writing.is_done());
    let done = writing.clone();
    advance_both(random, &mut writing, 7, &store, &mut file);
    assert_eq!(writing, done);
    assert_eq!(file, [proof_file(&labels, t), old[file_size(n, t)..].to_vec()].concat());
    calls + 2
}

pub fn any_state(random: &mut Random) -> u64 {
    let (n, m, store) = level_and_store(random, 40, 5);
    let (t, mut file) = count_and_file(random, n);
    let possible = !depth_refused(n) && !memory_refused(n, m) && store.len() >= store_size(m);
    let made = match random.below(10) {
        0 => random.wide(),
        1 if possible => nodes_anew(n, m) + random.below(2),
        2..=4 if possible => nodes_anew(n, m) - random.below(4).min(nodes_anew(n, m)),
        _ if possible => random.below(nodes_anew(n, m) + 1),
        _ => random.wide(),
    };
    // Only the last opening may be done: often it is the last.
    let number = match random.below(12) {
        0 => random.pick(&[0, t.wrapping_add(1), u64::MAX]),
        1..=5 => t,
        _ => random.between(1, t.clamp(1, 200)),
    };
    let (statement, edition) = (random.array(), random.edition());
    let leaf = leaf_of(random, n);
    let opening = Opening { statement, edition, depth: n, memory: m, leaf, made, held: random.array() };
    let mut writing = Writing { root: random.array(), count: t, number, opening };
    let budget = random.below(6);
    advance_both(random, &mut writing, budget, &store, &mut file);
    2
}

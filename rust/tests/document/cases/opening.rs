use super::run::level_and_store;
use super::{made_numbers, numbered};
use crate::lent::Lent;
use crate::model::opening::{advance, nodes_anew, opening_size, start};
use crate::model::run::store_size;
use crate::model::tree::Labels;
use crate::model::{depth_refused, file, memory_refused};
use crate::random::Random;
use mastdock::{ffi, Opening};

/// What stands beside a refused start.
pub const NO_OPENING: Opening =
    Opening { statement: [0; 32], edition: 0, depth: 0, memory: 0, leaf: 0, made: 0, held: [0; 1312] };

/// A leaf of a depth, or one beyond now and then.
pub fn leaf_of(random: &mut Random, n: u64) -> u64 {
    let leaves = 1 << n.min(63);
    match random.below(12) {
        0 => leaves - 1,
        1 => leaves,
        2 => random.wide(),
        _ => random.below(leaves),
    }
}

/// An output near the size of an opening.
fn output(random: &mut Random, n: u64) -> Vec<u8> {
    let len = random.near(opening_size(n.min(41)));
    random.bytes(len)
}

pub fn starts(random: &mut Random) -> u64 {
    let (edition, statement) = (random.edition(), random.array());
    let (n, m, store) = level_and_store(random, 40, 6);
    let n = if random.once_in(3) && m >= 1 { m } else { n };
    let leaf = leaf_of(random, n);
    let mut out = output(random, n);
    let (mut lent_store, mut lent_out) = (Lent::bytes(random, &store), Lent::bytes(random, &out));
    let mut again = out.clone();
    let expected = start(edition, &statement, n, m, leaf, &store, &mut out);
    let answer = Opening::start(edition, &statement, n, m, leaf, lent_store.get(), lent_out.get());
    assert_eq!(numbered("opening start", answer), expected);
    lent_store.is_now(&store);
    lent_out.is_now(&out);
    // SAFETY: pointers and lengths are those of references and slices; the output is borrowed alone.
    let started = unsafe {
        let (from, from_len, to_len) = (store.as_ptr(), store.len(), again.len());
        ffi::mastdock_opening_start(edition, &statement, n, m, leaf, from, from_len, again.as_mut_ptr(), to_len)
    };
    assert_eq!(started.opening, expected.unwrap_or(NO_OPENING));
    2
}

/// One call on an opening and its output, through Rust and through C.
fn advance_both(random: &mut Random, opening: &mut Opening, budget: u64, store: &[u8], out: &mut [u8]) {
    let (mut lent_store, mut lent_out) = (Lent::bytes(random, store), Lent::bytes(random, out));
    let (mut model, mut again) = (opening.clone(), Lent::bytes(random, out));
    // SAFETY: pointers and lengths are those of slices; the output is borrowed alone; every state is allowed.
    let advanced = unsafe {
        let (from, from_len, to) = (store.as_ptr(), store.len(), again.get());
        ffi::mastdock_opening_advance(opening.clone(), budget, from, from_len, to.as_mut_ptr(), to.len())
    };
    let expected = advance(&mut model, budget, store, out);
    let answer = opening.advance(budget, lent_store.get(), lent_out.get());
    assert_eq!(numbered("opening advance", answer), expected);
    assert_eq!((advanced.refusal, advanced.labels, advanced.blocks), made_numbers(expected));
    assert_eq!((&advanced.opening, &*opening), (&model, &model));
    lent_store.is_now(store);
    lent_out.is_now(out);
    again.is_now(out);
}

pub fn whole(random: &mut Random) -> u64 {
    let (edition, statement) = (random.between(1, 2), random.array());
    let n = random.between(1, 7);
    let m = random.below(n + 1);
    let leaf = random.below(1 << n);
    let labels = Labels::of(edition, statement, n);
    let store = labels.store(m);
    let beyond = random.below(40) as usize;
    let mut out = random.bytes(opening_size(n) + beyond);
    let old = out.clone();
    let mut opening = Opening::start(edition, &statement, n, m, leaf, &store, &mut out).unwrap();
    let most = random.pick(&[3, 10, 100]);
    let mut calls = 0;
    while opening.made < nodes_anew(n, m) {
        let budget = random.below(most);
        advance_both(random, &mut opening, budget, &store, &mut out);
        calls += 2;
    }
    advance_both(random, &mut opening, 7, &store, &mut out);
    assert_eq!(out, [labels.opening(leaf), old[opening_size(n)..].to_vec()].concat());
    let part = &out[..opening_size(n)];
    let answer = mastdock::check_opening(edition, &statement, &labels.root(), n, leaf, part);
    assert_eq!(numbered("check opening", answer), Ok(()));
    assert_eq!(file::check_opening(edition, &statement, n, leaf, &labels.root(), part), Ok(()));
    calls + 3
}

pub fn any_state(random: &mut Random) -> u64 {
    let (n, m, store) = level_and_store(random, 40, 5);
    let possible = !depth_refused(n) && !memory_refused(n, m) && store.len() >= store_size(m);
    let made = match random.below(10) {
        0 => random.wide(),
        1 if possible => nodes_anew(n, m) + random.below(2),
        2..=4 if possible => nodes_anew(n, m) - random.below(4).min(nodes_anew(n, m)),
        _ if possible => random.below(nodes_anew(n, m) + 1),
        _ => random.wide(),
    };
    let mut opening = Opening {
        statement: random.array(),
        edition: random.edition(),
        depth: n,
        memory: m,
        leaf: leaf_of(random, n),
        made,
        held: random.array(),
    };
    let mut out = output(random, n);
    let budget = random.below(6);
    advance_both(random, &mut opening, budget, &store, &mut out);
    2
}

//! Document 01, 'Table and other cases': T1 to T12 and the rest, each through the library where a call shows it and else by the
//! model; and the comparison, 'tested on openings made by hand'.
use crate::model::chain::{compare, Clash};
use crate::model::file::{groups, inputs};
use crate::model::run::slot;
use crate::model::sha256;
use crate::model::tree::{cost, in_order, input, input_size, parents, place_in_order, size, Node, ROOT};
use mastdock::{challenge, check_file, draw, file_size, plan, write_head};
use mastdock::{ffi, Hash, Made, Opening, Refusal, Rejected, Run, Writing, MAX_STORE};

pub fn run() {
    labels();
    sizes();
    numbers();
    chains();
    no_leaves();
    limits();
    levels();
    writings();
    message_blocks();
    label_blocks();
    no_blocks();
    clashes();
}

/// The parents of a leaf and the length of its hash input.
fn leaf_input(n: u64, leaf: u64) -> (Vec<Node>, usize) {
    let parents = parents(n, Node::at(n, leaf));
    let len = input(&[0; 32], Node::at(n, leaf), &vec![[0; 32]; parents.len()]).len();
    assert_eq!(input_size(n, Node::at(n, leaf)), len as u64);
    (parents, len)
}

/// T1 to T4, T6.
fn labels() {
    assert_eq!(leaf_input(4, 0b1101), (vec![Node::at(1, 0), Node::at(2, 0b10), Node::at(4, 0b1100)], 137));
    assert_eq!(leaf_input(4, 0), (vec![], 41));
    assert_eq!(input(&[0; 32], Node::at(2, 1), &[[0; 32]; 2]).len(), 105);
    assert_eq!(leaf_input(40, (1 << 40) - 1).1, 1321);
    assert_eq!(slot(Node::at(2, 3)), 32 * 6);
}

/// T5, T8, T9.
fn sizes() {
    for (m, size) in [(0, 32), (10, 65504)] {
        assert!(Run::start(&[0; 32], 10, m, &vec![0; size]).is_ok());
        assert_eq!(Run::start(&[0; 32], 10, m, &vec![0; size - 1]), Err(Refusal::ShortStore));
    }
    for (n, t, size) in [(1, 1, 131), (40, 200, 262468)] {
        assert_eq!(file_size(n, t), Some(size));
        assert_eq!(write_head(2, &[0; 32], &[0; 32], n, t, &mut vec![0; size]), Ok(()));
        assert_eq!(write_head(2, &[0; 32], &[0; 32], n, t, &mut vec![0; size - 1]), Err(Refusal::ShortOutput));
    }
}

fn rejected(refusal: Refusal) -> Result<(), Rejected> {
    Err(Rejected { refusal, opening: 0 })
}

/// T7; an empty file, and one byte more than the layout.
fn numbers() {
    assert_eq!((groups(128), groups(200)), (vec![0x80, 0x01], vec![0xc8, 0x01]));
    let mut file = vec![0; file_size(1, 200).unwrap()];
    for (t, bytes) in [(128, [0x80, 0x01]), (200, [0xc8, 0x01])] {
        write_head(2, &[0; 32], &[0; 32], 1, t, &mut file).unwrap();
        assert_eq!(file[2..4], bytes);
    }
    assert_eq!(check_file(&[2, 1, 0xc8, 0], &[0; 32], 1, 200), rejected(Refusal::NotShortest));
    assert_eq!(check_file(&[], &[0; 32], 1, 200), rejected(Refusal::BytesEnd));
    file.push(0);
    assert_eq!(check_file(&file, &[0; 32], 1, 200), rejected(Refusal::BytesLeft));
}

/// T10 to T12; 'With t = 200 at most 6,855 nodes', which so many leaves spread over levels 7 and 8 have.
fn chains() {
    let count = |n: u64, leaves: &[u64]| plan(n, leaves, &mut [0; 6855]).unwrap();
    assert_eq!(count(2, &[0]), 3);
    assert_eq!(count(2, &[0, 3]), 5);
    assert_eq!(count(4, &[0, 1, 2, 3, 8, 9, 13, 14, 15]), 20);
    let left = (0..128u64).map(|i| i << 33);
    let right = (0..72u64).map(|i| (2 * i + 1) << 32);
    assert_eq!(count(40, &left.chain(right).collect::<Vec<u64>>()), 6855);
}

/// W-203: with no leaf the count is 0 and nothing is written, at every depth, in a list of no places and of some; 'a proof of
/// 0 challenges is still refused', and so are 0 openings compared. Row order: 1; 8; 6.
fn no_leaves() {
    for n in 1..=40 {
        assert_eq!(plan(n, &[], &mut []), Ok(0));
        let mut list = [7; 3];
        assert_eq!((plan(n, &[], &mut list), list), (Ok(0), [7; 3]));
        assert_eq!(mastdock::compare(2, &[0; 32], n, &[], &[]), Err(Refusal::Count));
    }
    assert_eq!((plan(0, &[], &mut []), plan(41, &[], &mut [])), (Err(Refusal::Depth), Err(Refusal::Depth)));
    let mut many = [0; 201];
    many[200] = 2;
    assert_eq!(plan(1, &many, &mut [0; 3]), Err(Refusal::Count));
    assert_eq!(plan(1, &many[1..], &mut [0; 3]), Err(Refusal::LeafPosition));
    assert_eq!(Writing::start(2, &[0; 32], &[0; 32], 1, 0, 0, &[0; 32], &mut [0; 131]), Err(Refusal::Count));
    let (mut file, mut list) = ([0; 131], [7; 3]);
    write_head(2, &[0; 32], &[0; 32], 1, 1, &mut file).unwrap();
    assert_eq!(file[2], 1);
    file[2] = 0;
    assert_eq!(check_file(&file, &[0; 32], 1, 0), rejected(Refusal::Count));
    assert_eq!(draw(&file, &[0; 32], 1, 0, &mut list), Err(Rejected { refusal: Refusal::Count, opening: 0 }));
    assert_eq!(list, [7; 3]);
}

/// 'n 0 and 41 refused, 1 and 40 accepted; n = 3 with m = 3 opens with no new label, m = 4 refused; t 0 and 201 refused';
/// planning refuses only 201 (W-203).
fn limits() {
    let store = [7; 480];
    for (n, refused) in [(0, true), (41, true), (1, false), (40, false)] {
        assert_eq!(Run::start(&[0; 32], n, 0, &store) == Err(Refusal::Depth), refused);
        assert_eq!(Opening::start(2, &[0; 32], n, 0, 0, &store, &mut [0; 1312]) == Err(Refusal::Depth), refused);
        assert_eq!(challenge(2, &[0; 32], &[0; 32], n, 1) == Err(Refusal::Depth), refused);
        assert_eq!(plan(n, &[0], &mut [0; 41]) == Err(Refusal::Depth), refused);
    }
    let mut out = [0; 128];
    let mut opening = Opening::start(2, &[0; 32], 3, 3, 5, &store, &mut out).unwrap();
    assert_eq!(out, [7; 128]);
    assert_eq!(opening.advance(1, &store, &mut out), Ok(Made::default()));
    assert_eq!(Opening::start(2, &[0; 32], 3, 4, 5, &store, &mut out), Err(Refusal::MemoryLevel));
    for (t, refused) in [(0, true), (201, true), (1, false), (200, false)] {
        assert_eq!(challenge(2, &[0; 32], &[0; 32], 1, t) == Err(Refusal::Count), refused);
        assert_eq!(write_head(2, &[0; 32], &[0; 32], 1, t, &mut [0; 13000]) == Err(Refusal::Count), refused);
        assert_eq!(plan(1, &vec![0; t as usize], &mut [0; 3]) == Err(Refusal::Count), t == 201);
    }
}

/// W-209: at depths 13, 14, 15 and 40 the levels 13 and 14 are started and continued where the depth has them, 15, 20 and 21 nowhere:
/// 2 at a start, and 4 in a run, an opening or a file that is continued, though its store is too short as well.
fn levels() {
    let store = vec![0; MAX_STORE];
    for n in [13, 14, 15, 40] {
        for m in [13, 14, 15, 20, 21] {
            // one byte short of the level's size, or all that there is
            let short = &store[..store.len().min(32 * ((2 << m) - 1) - 1)];
            let over = |refusal| (m > n.min(14)).then_some(refusal);
            assert_eq!(starts(n, m, &store), [over(Refusal::MemoryLevel); 3]);
            assert_eq!(starts(n, m, short), [over(Refusal::MemoryLevel).or(Some(Refusal::ShortStore)); 3]);
            assert_eq!(continues(n, m, &store), [over(Refusal::State); 3]);
            assert_eq!(continues(n, m, short), [over(Refusal::State).or(Some(Refusal::ShortStore)); 3]);
        }
    }
}

/// What starting a run, an opening and a file is refused with.
fn starts(n: u64, m: u64, store: &[u8]) -> [Option<Refusal>; 3] {
    let (mut out, mut file) = ([0; 1312], [0; 1379]);
    [
        Run::start(&[0; 32], n, m, store).err(),
        Opening::start(2, &[0; 32], n, m, 0, store, &mut out).err(),
        Writing::start(2, &[0; 32], &[0; 32], n, m, 1, store, &mut file).err(),
    ]
}

/// The same of continuing each of them by a label, as it would be after a start.
fn continues(n: u64, m: u64, store: &[u8]) -> [Option<Refusal>; 3] {
    let (mut lent, mut out, mut file) = (store.to_vec(), [0; 1312], [0; 1379]);
    let mut run = Run { statement: [0; 32], edition: 2, depth: n, memory: m, made: 0, held: [0; 1312] };
    let mut opening =
        Opening { statement: [0; 32], edition: 2, depth: n, memory: m, leaf: 0, made: 0, held: [0; 1312] };
    let mut writing = Writing { root: [0; 32], count: 1, number: 1, opening: opening.clone() };
    [
        run.advance(1, &mut lent).err(),
        opening.advance(1, store, &mut out).err(),
        writing.advance(1, store, &mut file).err(),
    ]
}

/// docs/DECISIONS.md, 'The file': only the last opening may be done; 'with m = n the start alone writes the whole file'.
fn writings() {
    let (store, mut file) = ([7; 224], [0; 300]);
    let anew = Writing::start(2, &[0; 32], &[0; 32], 2, 0, 2, &store, &mut file).unwrap();
    assert_eq!((anew.number, anew.opening.made), (1, 0));
    for (number, answer) in [(1, Err(Refusal::State)), (2, Ok(Made::default()))] {
        let mut done = Writing { number, ..anew.clone() };
        done.opening.made = 6;
        let (before, bytes) = (done.clone(), file);
        assert_eq!((done.advance(1, &store, &mut file), done, file), (answer, before, bytes));
    }
    let mut whole = Writing::start(2, &[0; 32], &[0; 32], 2, 2, 2, &store, &mut file).unwrap();
    assert_eq!((whole.number, whole.advance(1, &store, &mut file)), (2, Ok(Made::default())));
    assert_eq!(file[67..259], [7; 192]);
    whole.number = 1;
    assert_eq!(whole.advance(0, &store, &mut file), Err(Refusal::State));
}

/// W-207: lengths at which a message needs a block more, and the longest one, by a state; of one byte more the end is refused, with 0
/// blocks.
fn message_blocks() {
    for (len, blocks) in [(0, 1), (55, 1), (56, 2), (63, 2), (64, 2), (119, 2), (120, 3), (1321, 21)] {
        assert_eq!(mastdock::digest_blocks(&vec![7; len]).map(|hashed| hashed.blocks), Ok(blocks));
    }
    for (taken, refusal, blocks) in [((1 << 61) - 1, 0, (1 << 55) + 1), (1 << 61, 5, 0), (u64::MAX, 5, 0)] {
        // SAFETY: every state is allowed.
        let finished = unsafe { ffi::mastdock_hash_finish(Hash { taken, ..Hash::new() }) };
        assert_eq!((finished.refusal, finished.blocks), (refusal, blocks));
    }
}

/// W-207: 'An inner node costs 2, a leaf without parents 1, the dearest leaf 21.' By a run of depth 40 that has come to the node, and in
/// the model; and a whole run, whose blocks b are 4 (b + 2) = (n + 13) 2^n.
fn label_blocks() {
    let nodes = [(Node::at(40, 0), 1), (Node::at(39, 0), 2), (ROOT, 2), (Node::at(40, (1 << 40) - 1), 21)];
    for (v, blocks) in nodes {
        let mut run =
            Run { statement: [0; 32], edition: 2, depth: 40, memory: 0, made: place_in_order(40, v), held: [0; 1312] };
        assert_eq!(run.advance(1, &mut [0; 32]), Ok(Made { labels: 1, blocks }));
        assert_eq!(cost(40, v), blocks);
    }
    for n in 1..=12 {
        let blocks: u64 = (0..size(n)).map(|k| cost(n, in_order(n, ROOT, k))).sum();
        let mut run = Run::start(&[0; 32], n, 0, &[0; 32]).unwrap();
        assert_eq!(run.advance(u64::MAX, &mut [0; 32]), Ok(Made { labels: size(n), blocks }));
        assert_eq!(4 * (blocks + 2), (n + 13) << n);
    }
}

/// W-207: with a budget of 0, and of a run or an opening that is done, no label and no block.
fn no_blocks() {
    let (mut store, mut out) = ([0; 96], [0; 128]);
    for (made, budget) in [(0, 0), (7, 0), (15, 0), (15, 1), (15, u64::MAX)] {
        let mut run = Run { statement: [0; 32], edition: 2, depth: 3, memory: 1, made, held: [0; 1312] };
        assert_eq!(run.advance(budget, &mut store), Ok(Made::default()));
    }
    for (made, budget) in [(0, 0), (3, 0), (6, 0), (6, 1), (6, u64::MAX)] {
        let mut opening =
            Opening { statement: [0; 32], edition: 2, depth: 3, memory: 1, leaf: 7, made, held: [0; 1312] };
        assert_eq!(opening.advance(budget, &store, &mut out), Ok(Made::default()));
    }
}

/// Openings of leaves 0, 1 and 0 at depth 2 by hand, in both editions.
fn clashes() {
    let statement = [9; 32];
    let [a, b, c, d] = [[1; 32], [2; 32], [3; 32], [4; 32]];
    let first = [a, b, c].concat();
    let none = [&first[..], &[b, a, c].concat(), &first].concat();
    // The third gives another sibling of the leaf, so its computed label on level 1 differs as well: the root comes first.
    let third = [a, d, c].concat();
    let clash = [&first[..], &[b, a, c].concat(), &third].concat();
    for (edition, pair, [left, right]) in [(1, [a, b], [41, 73]), (2, [b, a], [73, 41])] {
        assert_eq!(compare(edition, &statement, 2, &[0, 1, 0], &none), Ok(None));
        let expected = Clash {
            i: 1,
            j: 3,
            level: 0,
            first: inputs(edition, &statement, 2, 0, &first)[2].clone(),
            second: inputs(edition, &statement, 2, 0, &third)[2].clone(),
        };
        assert_eq!(expected.first[right..][..32], c);
        assert_eq!(expected.first[left..][..32], sha256::digest(&input(&statement, Node::at(1, 0), &pair)));
        assert_eq!(compare(edition, &statement, 2, &[0, 1, 0], &clash), Ok(Some(expected)));
        assert_eq!(mastdock::compare(edition, &statement, 2, &[0, 1, 0], &none), Ok(None));
        let found = mastdock::compare(edition, &statement, 2, &[0, 1, 0], &clash).unwrap().unwrap();
        assert_eq!((found.i, found.j, found.level, &found.first[right..][..32]), (1, 3, 0, &c[..]));
    }
}

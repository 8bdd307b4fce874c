//! W-206, edges: the order of each edition by hand, 12 first where an edition is given, 4 where a state has one that does not exist, and
//! that states keep theirs.
use crate::cases::{new_run, proof_file};
use crate::model::file::leaf;
use crate::model::sha256::digest;
use crate::model::tree::{hashed_parents, input, size, Labels, Node, ROOT};
use mastdock::{challenge, check_file, check_opening, compare, read_head, write_head};
use mastdock::{Head, Opening, Refusal, Run, Writing, MAX_EDITION, MAX_RECORD, NEW_EDITION};

/// Editions that do not exist.
const NONE: [u64; 6] = [0, 3, 4, 128, (1 << 32) + 2, u64::MAX];

pub fn run() {
    assert_eq!((MAX_EDITION, NEW_EDITION), (2, 2));
    orders();
    by_hand();
    shallow();
    first();
    states();
    kept();
    heads();
    other_number();
}

/// 'the label made last comes first after the position: right child before left, and for a leaf the largest level first': T1's leaf, and
/// that edition 2 has the labels of edition 1 in reverse, at every node of small trees and at some of depth 40.
fn orders() {
    let leaf = Node::at(4, 0b1101);
    let [a, b, c] = [Node::at(1, 0), Node::at(2, 0b10), Node::at(4, 0b1100)];
    assert_eq!([1, 2].map(|edition| hashed_parents(edition, 4, leaf)), [vec![a, b, c], vec![c, b, a]]);
    assert_eq!(hashed_parents(2, 4, ROOT), [ROOT.right(), ROOT.left()]);
    let small =
        (1..=6).flat_map(|n| (0..=n).flat_map(move |level| (0..1 << level).map(move |p| (n, Node::at(level, p)))));
    let deep = [(1 << 40) - 1, 0x55_5555_5555, 1, 1 << 39].map(|leaf| (40, Node::at(40, leaf)));
    for (n, v) in small.chain(deep) {
        let mut reversed = hashed_parents(1, n, v);
        reversed.reverse();
        assert_eq!(hashed_parents(2, n, v), reversed);
    }
}

/// All labels of depth 2 in edition 2, each input written out; the library's run, store, openings and file have them.
fn by_hand() {
    let statement = [206; 32];
    let label = |level, position, labels: &[[u8; 32]]| digest(&input(&statement, Node::at(level, position), labels));
    let a = label(2, 0, &[]);
    let b = label(2, 1, &[a]);
    let left = label(1, 0, &[b, a]);
    let c = label(2, 2, &[left]);
    let d = label(2, 3, &[c, left]);
    let right = label(1, 1, &[d, c]);
    let root = label(0, 0, &[right, left]);
    let mut store = [0; 224];
    let mut run = Run::start(&statement, 2, 2, &store).unwrap();
    assert_eq!(run.advance(7, &mut store).map(|made| made.labels), Ok(7));
    assert_eq!((run.edition, run.root()), (2, Some(root)));
    assert_eq!(store, *[root, left, right, a, b, c, d].concat());
    for (leaf, opening) in [[a, b, right], [b, a, right], [c, d, left], [d, c, left]].into_iter().enumerate() {
        let bytes = opening.concat();
        assert_eq!(check_opening(2, &statement, &root, 2, leaf as u64, &bytes), Ok(()));
        // In edition 1 the last leaf's two parents stand in the other order; the others have one at most.
        let other = if leaf == 3 { Refusal::LeafLabel } else { Refusal::Root };
        assert_eq!(check_opening(1, &statement, &root, 2, leaf as u64, &bytes), Err(other));
    }
    let labels = Labels::of(2, statement, 2);
    assert_eq!((labels.root(), labels.store(2)), (root, store.to_vec()));
}

/// At depth 1 no leaf has two parents: the leaves' labels are the same in both editions, and the root is not.
fn shallow() {
    let [one, two] = [1, 2].map(|edition| {
        let mut store = [0; 96];
        let mut run = new_run(edition, &[5; 32], 1, 1, &store);
        assert_eq!(run.advance(3, &mut store).map(|made| made.labels), Ok(3));
        store
    });
    assert!(one[32..] == two[32..] && one[..32] != two[..32]);
}

/// What the six calls that take an edition are refused with, where all else is wrong as well or all else is right.
fn answers(edition: u64, wrong: bool) -> [Option<Refusal>; 6] {
    let (zero, list) = ([0; 32], [0]);
    let (n, i) = if wrong { (0, 0) } else { (1, 1) };
    let (mut store, mut out, mut file) = (vec![0; 96], vec![0; 64], vec![0; 131]);
    if wrong {
        (store, out, file) = (vec![], vec![], vec![]);
    }
    let given = out.clone();
    [
        Opening::start(edition, &zero, n, n, 1 - i, &store, &mut out).err(),
        challenge(edition, &zero, &zero, n, i).err(),
        write_head(edition, &zero, &zero, n, i, &mut file).err(),
        check_opening(edition, &zero, &zero, n, 0, &given).err(),
        Writing::start(edition, &zero, &zero, n, n, i, &store, &mut file).err(),
        compare(edition, &zero, n, &list, &given).err(),
    ]
}

/// '12 … comes first where an opening, a head or a challenge is given its edition'; then 1.
fn first() {
    for edition in NONE {
        assert_eq!([false, true].map(|wrong| answers(edition, wrong)), [[Some(Refusal::Edition); 6]; 2]);
    }
    for edition in [1, 2] {
        assert_eq!(answers(edition, true), [Some(Refusal::Depth); 6]);
        let right = answers(edition, false);
        assert_eq!(right, [None, None, None, Some(Refusal::LeafLabel), None, None]);
    }
    // Challenges do not depend on the edition.
    for (n, i) in [(1, 1), (17, 3), (40, 200)] {
        let expected = Ok(leaf(n, &[3; 32], &[4; 32], i));
        assert_eq!([1, 2].map(|edition| challenge(edition, &[3; 32], &[4; 32], n, i)), [expected; 2]);
    }
}

/// 'one that does not exist gets 4': continuing a run, an opening or a file, and writing a record; before 3 and 7, with nothing changed.
fn states() {
    for edition in NONE {
        for len in [0, 2000] {
            let mut lent = [vec![7; len], vec![7; len]];
            let [store, out] = &mut lent;
            let mut run = Run { statement: [0; 32], edition, depth: 1, memory: 1, made: 0, held: [0; 1312] };
            let mut opening =
                Opening { statement: [0; 32], edition, depth: 1, memory: 0, leaf: 0, made: 0, held: [0; 1312] };
            let mut writing = Writing { root: [0; 32], count: 1, number: 1, opening: opening.clone() };
            let before = (run.clone(), opening.clone(), writing.clone());
            assert_eq!(run.record(out), Err(Refusal::State));
            assert_eq!(run.advance(1, store), Err(Refusal::State));
            assert_eq!(opening.advance(1, store, out), Err(Refusal::State));
            assert_eq!(writing.advance(1, store, out), Err(Refusal::State));
            assert_eq!((run, opening, writing), before);
            assert!(lent == [vec![7; len], vec![7; len]]);
        }
    }
}

/// 'a run keeps its edition': through every call, by a record as well, and so do an opening and a file; the head says it.
fn kept() {
    for edition in [1, 2] {
        let labels = Labels::of(edition, [8; 32], 3);
        let (root, mut store) = (labels.root(), vec![0; 96]);
        let mut run = new_run(edition, &labels.statement, 3, 1, &store);
        for _ in 0..size(3) {
            let mut record = [0; MAX_RECORD];
            let len = run.record(&mut record).unwrap();
            run = Run::resume(&record[..len]).unwrap();
            assert_eq!((u64::from(record[0]), run.edition), (edition, edition));
            assert_eq!(run.advance(1, &mut store).map(|made| made.labels), Ok(1));
        }
        assert_eq!((run.edition, run.root()), (edition, Some(root)));
        let mut out = [0; 128];
        let mut opening = Opening::start(edition, &labels.statement, 3, 1, 6, &store, &mut out).unwrap();
        assert_eq!(opening.advance(9, &store, &mut out).map(|made| (made.labels, opening.edition)), Ok((6, edition)));
        assert_eq!(out, *labels.opening(6));
        let mut file = vec![0; 67 + 4 * 128];
        let mut writing = Writing::start(edition, &labels.statement, &root, 3, 1, 4, &store, &mut file).unwrap();
        while writing.advance(5, &store, &mut file).unwrap().labels != 0 {}
        assert_eq!((writing.opening.edition, &file), (edition, &proof_file(&labels, 4)));
        assert_eq!(read_head(&file), Ok(Head { edition, depth: 3, count: 4 }));
    }
}

/// The head's edition is refused before its depth, which is not looked at; 10 and 11 come before 12.
fn heads() {
    for (bytes, refusal) in [
        (&[0, 0][..], 12),
        (&[3, 0], 12),
        (&[3], 12),
        (&[0x80, 2], 12),
        (&[0x82, 1], 12),
        (&[0x82, 0, 1, 1], 11),
        (&[0x82, 0x80, 1, 1], 11),
        (&[0x82], 10),
        (&[1], 10),
        (&[2], 10),
        (&[1, 0], 1),
        (&[2, 0], 1),
        (&[2, 41], 1),
        (&[2, 1, 0], 8),
    ] {
        assert_eq!(read_head(bytes).map_err(Refusal::number), Err(refusal));
        assert_eq!(check_file(bytes, &[0; 32], 1, 1).map_err(|rejected| rejected.code()), Err(256 * refusal));
    }
    for edition in [1, 2] {
        assert_eq!(read_head(&[edition, 40, 0xc8, 1]), Ok(Head { edition: edition.into(), depth: 40, count: 200 }));
    }
}

/// A file with the other edition's number is checked by that one's order: a leaf label or the root is wrong.
fn other_number() {
    for edition in [1, 2u8] {
        for n in 1..=6 {
            let labels = Labels::of(edition.into(), digest(&[n as u8]), n);
            let mut file = proof_file(&labels, 5);
            assert_eq!(check_file(&file, &labels.statement, n, 5), Ok(()));
            file[0] = 3 - edition;
            let rejected = check_file(&file, &labels.statement, n, 5).unwrap_err();
            assert!([Refusal::LeafLabel, Refusal::Root].contains(&rejected.refusal) && rejected.opening >= 1);
            file[0] = 3;
            assert_eq!(check_file(&file, &labels.statement, n, 5).unwrap_err().code(), 256 * 12);
        }
    }
}

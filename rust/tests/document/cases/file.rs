use super::opening::leaf_of;
use super::{numbered, see};
use crate::lent::Lent;
use crate::model::file::{challenge, check, check_opening, code, file_size, groups, head, inputs, leaf};
use crate::model::file::{opening_place, read_head};
use crate::model::opening::opening_size;
use crate::model::sha256::digest;
use crate::model::tree::Labels;
use crate::model::{file, label_at, Label};
use crate::random::Random;
use mastdock::{ffi, Head, Rejected};

pub fn challenges(random: &mut Random) -> u64 {
    let (edition, statement, root) = (random.edition(), random.array(), random.array());
    let (depth, i) = (random.between(1, 40), random.between(1, 200));
    let (n, i) = (random.or_edge(depth, 40), random.or_edge(i, 200));
    let answer = mastdock::challenge(edition, &statement, &root, n, i);
    assert_eq!(numbered("challenge", answer), challenge(edition, n, &statement, &root, i));
    1
}

pub fn heads(random: &mut Random) -> u64 {
    let (edition, statement, root) = (random.edition(), random.array(), random.array());
    let (depth, most) = (random.between(1, 40), random.pick(&[3, 20, 200]));
    let count = random.between(1, most);
    let len = random.near(file_size(depth, count));
    let mut bytes = random.bytes(len);
    let (n, t) = (random.or_edge(depth, 40), random.or_edge(count, 200));
    let mut lent = Lent::bytes(random, &bytes);
    let answer = mastdock::write_head(edition, &statement, &root, n, t, lent.get());
    assert_eq!(numbered("write head", answer), file::write_head(edition, &statement, &root, n, t, &mut bytes));
    lent.is_now(&bytes);
    1
}

/// Head bytes that are right, or not.
fn numbers(random: &mut Random, edition: u64, n: u64, t: u64) -> Vec<u8> {
    if random.once_in(3) {
        let values =
            [random.or_edge(edition, 2) % 16384, random.or_edge(n, 40) % 16384, random.or_edge(t, 200) % 16384];
        return values.map(groups).concat();
    }
    if random.once_in(3) {
        // Any bytes; top bits set or the last of several bytes 0.
        let len = random.below(7) as usize;
        return (0..len).map(|_| random.pick(&[0, 1, 2, 3, 5, 40, 127, 128, 129, 200, 255])).collect();
    }
    [groups(edition), groups(n), groups(t)].concat()
}

/// Places in bytes of any content: a head that is right or not, and a length that is the layout's or not.
pub fn places(random: &mut Random) -> u64 {
    let most = random.pick(&[3, 200]);
    let (n, t) = (random.between(1, 40), random.between(1, most));
    let edition = random.between(1, 2);
    let mut bytes = numbers(random, edition, n, t);
    let rest = random.near(64 + t as usize * opening_size(n));
    bytes.extend(random.bytes(rest));
    let mut lent = Lent::bytes(random, &bytes);
    let head = mastdock::read_head(lent.get()).map(|Head { edition, depth, count }| (edition, depth, count));
    let expected = read_head(&bytes).map(|head| (head.edition, head.n, head.t));
    assert_eq!(numbered("read head", head), expected);
    // SAFETY: pointer and length are a slice's.
    let all = unsafe { ffi::mastdock_read_head(bytes.as_ptr(), bytes.len()) };
    let (edition, depth, count) = expected.unwrap_or((0, 0, 0));
    assert_eq!(all, ffi::HeadRead { refusal: expected.err().unwrap_or(0), edition, depth, count });
    lent.is_now(&bytes);
    let numbers = [0, 1, t / 2, t, t + 1, u64::MAX, random.below(201)];
    for i in numbers {
        let mut lent = Lent::bytes(random, &bytes);
        let (offset, length) = opening_place(&bytes, i);
        let place = mastdock::opening_place(lent.get(), i);
        assert_eq!((place.offset, place.length), (offset, length));
        assert_eq!(mastdock::opening_part(&bytes, i), &bytes[offset..offset + length]);
        lent.is_now(&bytes);
    }
    2 * numbers.len() as u64 + 2
}

/// An opening of a leaf at any depth that is right in this edition, and its root: siblings are random, and the root is what they give.
pub fn right_opening(random: &mut Random, edition: u64, statement: &Label, n: u64, leaf: u64) -> (Vec<u8>, Label) {
    let mut bytes = random.bytes(opening_size(n));
    let leaf_label = digest(&inputs(edition, statement, n, leaf, &bytes)[0]);
    bytes[..32].copy_from_slice(&leaf_label);
    let root = digest(&inputs(edition, statement, n, leaf, &bytes)[n as usize]);
    (bytes, root)
}

pub fn openings(random: &mut Random) -> u64 {
    let mut edition = random.between(1, 2);
    let mut statement = random.array();
    let n = random.between(1, 40);
    let right = random.below(1 << n);
    let (mut bytes, mut root) = right_opening(random, edition, &statement, n, right);
    let (mut n, mut leaf) = (n, right);
    match random.below(14) {
        0 => random.damage(&mut bytes),
        1 => random.damage(&mut bytes[..32]),
        2 => random.damage(&mut root),
        3 => random.damage(&mut statement),
        4 => leaf = leaf_of(random, n),
        5 => n = random.or_edge(n + 1, 40),
        6 => {
            let len = random.near(bytes.len());
            bytes.resize(len, 0);
        }
        7 => {
            // A changed sibling, with the leaf label that fits it: only the root is wrong.
            random.damage(&mut bytes[32..]);
            let label = digest(&inputs(edition, &statement, n, leaf, &bytes)[0]);
            bytes[..32].copy_from_slice(&label);
        }
        8 => edition = random.or_edge(3 - edition, 2),
        9 => (edition, n) = (random.edition(), random.or_edge(n, 40)),
        _ => {}
    }
    let expected = check_opening(edition, &statement, n, leaf, &root, &bytes);
    let mut lent = Lent::bytes(random, &bytes);
    let answer = mastdock::check_opening(edition, &statement, &root, n, leaf, lent.get());
    assert_eq!(numbered("check opening", answer), expected);
    lent.is_now(&bytes);
    1
}

/// The proof file of a tree, by the definitions.
pub fn proof_file(labels: &Labels, t: u64) -> Vec<u8> {
    let (statement, n, root) = (labels.statement, labels.n, labels.root());
    let mut bytes = head(labels.edition, &statement, &root, n, t);
    (1..=t).for_each(|i| bytes.extend(labels.opening(leaf(n, &statement, &root, i))));
    bytes
}

/// Sets a label of an opening right again after a change beside it, so that the file is refused for its root.
fn mend_leaf(bytes: &mut [u8], edition: u64, n: u64, t: u64, random: &mut Random) {
    let at = file::head_size(n, t) - 64;
    let (statement, root) = (label_at(bytes, at), label_at(bytes, at + 32));
    let i = random.between(1, t);
    let part = at + 64 + (i - 1) as usize * opening_size(n);
    random.damage(&mut bytes[part + 32..][..opening_size(n) - 32]);
    let opening = bytes[part..][..opening_size(n)].to_vec();
    let label = digest(&inputs(edition, &statement, n, leaf(n, &statement, &root, i), &opening)[0]);
    bytes[part..][..32].copy_from_slice(&label);
}

/// A file and what is wanted of it.
pub struct Wanted {
    pub bytes: Vec<u8>,
    pub statement: Label,
    pub n: u64,
    pub t: u64,
}

/// The kinds of changes that `changed` makes, from 0, which is none.
pub const CHANGES: u64 = 9;

/// A tree's proof file, changed in one of several ways.
pub fn changed(random: &mut Random, labels: &Labels, whole: &[u8], t: u64, change: u64) -> Wanted {
    let mut file = Wanted { bytes: whole.to_vec(), statement: labels.statement, n: labels.n, t };
    let Wanted { bytes, statement, n, t } = &mut file;
    match change {
        0 => {}
        1 => random.damage(bytes),
        2 => {
            let end = bytes.len().min(100);
            random.damage(&mut bytes[..end]);
        }
        3 => mend_leaf(bytes, labels.edition, *n, *t, random),
        4 => {
            let len = random.near(bytes.len());
            bytes.resize(len, 0);
        }
        5 => match random.below(3) {
            0 => random.damage(statement),
            1 => *n = random.or_edge(*n + 1, 40),
            _ => *t = random.or_edge(*t + 1, 200),
        },
        6 => {
            // Other numbers in front of the same rest.
            let rest = bytes.split_off(file::head_size(*n, *t) - 64);
            *bytes = numbers(random, labels.edition, *n, *t);
            bytes.extend(rest);
        }
        // The other edition's number: refused with 14, or with 15 where all leaves opened have at most one parent.
        7 => bytes[0] = 3 - bytes[0],
        _ => {
            let len = random.below(8) as usize;
            *bytes = numbers(random, labels.edition, *n, *t);
            bytes.extend(random.bytes(len));
        }
    }
    file
}

pub fn files(random: &mut Random) -> u64 {
    let labels = Labels::of(random.between(1, 2), random.array(), random.between(1, 5));
    let most = random.pick(&[1, 3, 10, 40, 200]);
    let t = random.between(1, most);
    let whole = proof_file(&labels, t);
    for change in 0..CHANGES {
        let Wanted { bytes, statement, n, t } = changed(random, &labels, &whole, t, change);
        let expected = check(&bytes, &statement, n, t);
        let mut lent = Lent::bytes(random, &bytes);
        let answer = mastdock::check_file(lent.get(), &statement, n, t);
        assert_eq!(answer.map_err(|Rejected { refusal, opening }| (refusal.number(), opening.into())), expected);
        assert_eq!(answer.map_or_else(Rejected::code, |()| 0), code(expected));
        see("check file", code(expected) / 256);
        if expected.is_ok() {
            see("edition checked", bytes[0].into());
        }
        lent.is_now(&bytes);
    }
    CHANGES
}

use super::file::{changed, proof_file, Wanted, CHANGES};
use super::{numbered, see};
use crate::lent::Lent;
use crate::model::chain::{chain, compare, draw, leaves_opened, plan, Clash, Drawn};
use crate::model::opening::opening_size;
use crate::model::tree::Labels;
use crate::model::Label;
use crate::random::Random;
use mastdock::{ffi, Drawing, Refusal, Rejected};

/// Leaves of a depth, some of them equal or beside one another.
fn leaves(random: &mut Random, n: u64) -> Vec<u64> {
    let most = random.pick(&[1, 3, 10, 50, 200]);
    let count = random.between(1, most);
    let span = random.between(1, n);
    let from = random.below(1 << (n - span)) << span;
    let mut leaves: Vec<u64> = (0..count).map(|_| from + random.below(1 << span)).collect();
    if random.once_in(10) {
        let at = random.below(count) as usize;
        leaves[at] = random.pick(&[1 << n, (1 << n) - 1, u64::MAX]);
    }
    if random.once_in(10) {
        let count = random.pick(&[0, 0, 199, 200, 201, 210]);
        leaves.resize(count, from);
    }
    leaves
}

pub fn plans(random: &mut Random) -> u64 {
    let depth = random.between(1, 40);
    let leaves = leaves(random, depth);
    let n = random.or_edge(depth, 40);
    let inside = (1..=40).contains(&n) && leaves.iter().all(|leaf| *leaf < 1 << n);
    let count = if inside { chain(n, &leaves).len() } else { 20 };
    let len = random.near(count);
    let mut list = random.words(len);
    let (mut lent_leaves, mut lent_list) = (Lent::words(random, &leaves), Lent::words(random, &list));
    let answer = mastdock::plan(n, lent_leaves.get(), lent_list.get()).map(|count| count as u64);
    if leaves.is_empty() {
        see("plan: no leaves", answer.map_or_else(Refusal::number, |count| count));
    }
    assert_eq!(numbered("plan", answer), plan(n, &leaves, &mut list));
    lent_leaves.is_now(&leaves);
    lent_list.is_now(&list);
    1
}

/// A clash of the library as the model's.
fn clash(clash: mastdock::Clash) -> Clash {
    let mastdock::Clash { i, j, level, first, second } = clash;
    Clash { i, j, level, first: first.to_vec(), second: second.to_vec() }
}

/// All fields of a clash; all zero where there is none.
fn all_of_clash(clash: Option<Clash>) -> ffi::Clash {
    let none = Clash { i: 0, j: 0, level: 0, first: vec![0; 105], second: vec![0; 105] };
    let Clash { i, j, level, first, second } = clash.unwrap_or(none);
    ffi::Clash { i, j, level, first: first.try_into().unwrap(), second: second.try_into().unwrap(), zero: [0; 6] }
}

/// The bytes of an answer, as memcmp sees them.
fn bytes_of<A>(answer: &A) -> &[u8] {
    // SAFETY: the struct has no padding, so all of its bytes are written.
    unsafe { std::slice::from_raw_parts((answer as *const A).cast(), std::mem::size_of::<A>()) }
}

/// Openings of a tree, or of any bytes; some are changed.
fn openings(random: &mut Random, any: bool, edition: u64, statement: Label, depth: u64, leaves: &[u64]) -> Vec<u8> {
    let mut bytes: Vec<u8> = if any {
        random.bytes(leaves.len() * opening_size(depth))
    } else {
        let labels = Labels::of(edition, statement, depth);
        leaves.iter().flat_map(|leaf| labels.opening(leaf % (1 << depth))).collect()
    };
    if random.once_in(2) {
        random.damage(&mut bytes);
    }
    if random.once_in(6) {
        let len = random.near(bytes.len());
        bytes.resize(len, 0);
    }
    bytes
}

/// With few leaves, so that many ways are shared.
pub fn comparisons(random: &mut Random) -> u64 {
    let any = random.once_in(4);
    let depth = random.between(1, if any { 40 } else { 5 });
    let mut leaves = leaves(random, depth);
    leaves.truncate(random.pick(&[1, 4, 30, 200, 250]));
    let (mut statement, right) = (random.array(), random.between(1, 2));
    let bytes = openings(random, any, right, statement, depth, &leaves);
    if random.once_in(10) {
        random.damage(&mut statement);
    }
    // Openings need not be right: of the other edition now and then.
    let edition = if random.once_in(4) { random.edition() } else { right };
    let n = random.or_edge(depth, 40);
    let (mut lent_leaves, mut lent_bytes) = (Lent::words(random, &leaves), Lent::bytes(random, &bytes));
    let answer = mastdock::compare(edition, &statement, n, lent_leaves.get(), lent_bytes.get());
    let answer = answer.map(|found| found.map(clash));
    let expected = compare(edition, &statement, n, &leaves, &bytes);
    if let Ok(found) = &expected {
        see("compare: clash", found.is_some().into());
    }
    if let Ok(Some(_)) = expected {
        see("edition clashing", edition);
    }
    assert_eq!(numbered("compare", answer), expected);
    lent_leaves.is_now(&leaves);
    lent_bytes.is_now(&bytes);
    // SAFETY: pointers and lengths are those of a reference and slices.
    let compared = unsafe {
        let (leaves_len, bytes_len) = (leaves.len(), bytes.len());
        ffi::mastdock_compare(edition, &statement, n, leaves.as_ptr(), leaves_len, bytes.as_ptr(), bytes_len)
    };
    let (refusal, found) = expected.map_or_else(|refusal| (refusal, None), |found| (0, found));
    assert_eq!(bytes_of(&compared), bytes_of(&ffi::Compared { refusal, clash: all_of_clash(found) }));
    2
}

/// A drawing of the library as the model's.
fn drawing(answer: Result<Drawing, Rejected>) -> Drawn {
    match answer {
        Err(Rejected { refusal, opening }) => Drawn::Refused(refusal.number(), opening.into()),
        Ok(Drawing::Chain(count)) => Drawn::Chain(count as u64),
        Ok(Drawing::Clash(found)) => Drawn::Clash(clash(found)),
    }
}

/// All numbers of an answer: those of its kind, and 0 for the others.
fn all_numbers(drawn: &Drawn) -> ffi::Drawn {
    let clash = all_of_clash(None);
    let none = ffi::Drawn { kind: 0, code: 0, count: 0, clash };
    match drawn.clone() {
        Drawn::Refused(refusal, opening) => ffi::Drawn { code: 256 * refusal + opening, ..none },
        Drawn::Chain(count) => ffi::Drawn { kind: 1, count, ..none },
        Drawn::Clash(clash) => ffi::Drawn { kind: 2, clash: all_of_clash(Some(clash)), ..none },
    }
}

pub fn drawings(random: &mut Random) -> u64 {
    let labels = Labels::of(random.between(1, 2), random.array(), random.between(1, 6));
    let most = random.pick(&[1, 3, 10, 40, 200]);
    let t = random.between(1, most);
    let whole = proof_file(&labels, t);
    let count = chain(labels.n, &leaves_opened(&whole)).len();
    for change in 0..CHANGES {
        let Wanted { bytes, statement, n, t } = changed(random, &labels, &whole, t, change);
        let len = random.near(count);
        let mut list = random.words(len);
        let (mut lent_file, mut lent_list) = (Lent::bytes(random, &bytes), Lent::words(random, &list));
        let mut again = list.clone();
        let expected = draw(&bytes, &statement, n, t, &mut list);
        assert_eq!(drawing(mastdock::draw(lent_file.get(), &statement, n, t, lent_list.get())), expected);
        lent_file.is_now(&bytes);
        lent_list.is_now(&list);
        // SAFETY: pointers and lengths are those of a reference and slices; the list is borrowed alone.
        let drawn = unsafe {
            let (file, file_len, list_len) = (bytes.as_ptr(), bytes.len(), again.len());
            ffi::mastdock_draw(file, file_len, &statement, n, t, again.as_mut_ptr(), list_len)
        };
        assert_eq!(bytes_of(&drawn), bytes_of(&all_numbers(&expected)));
        see("draw", drawn.code / 256);
        if let Drawn::Chain(_) = expected {
            see("edition drawn", bytes[0].into());
        }
    }
    2 * CHANGES
}

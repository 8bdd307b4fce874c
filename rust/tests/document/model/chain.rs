//! Document 01, 'Drawing the chain'.
use super::file::{check, inputs, leaf, opening_place, read_head, Head};
use super::opening::opening_size;
use super::tree::{Node, ROOT};
use super::{count_refused, depth_refused, edition_refused, label_at, row, Label};

/// 'the nodes on the opened leaves' ways to the root are written in labelling order, each once, as 2^l + p'.
pub fn chain(n: u64, leaves: &[u64]) -> Vec<u64> {
    let mut sorted = leaves.to_vec();
    sorted.sort();
    let mut codes = vec![];
    visit(n, ROOT, &sorted, &mut codes);
    codes
}

/// The nodes of a subtree that are on the ways of leaves below it, which `leaves` are, sorted.
fn visit(n: u64, v: Node, leaves: &[u64], codes: &mut Vec<u64>) {
    if leaves.is_empty() {
        return;
    }
    if v.level < n {
        let right = leaves.partition_point(|leaf| Node::at(n, *leaf).above(v.level + 1) == v.left());
        visit(n, v.left(), &leaves[..right], codes);
        visit(n, v.right(), &leaves[right..], codes);
    }
    codes.push((1 << v.level) + v.position);
}

/// Row 'Planning a chain'. 'later places keep what they had.' W-203: 'Planning refuses with 8 only above 200 leaves'.
pub fn plan(n: u64, leaves: &[u64], list: &mut [u64]) -> Result<u64, u64> {
    row(&[(1, &|| depth_refused(n)), (8, &|| leaves.len() > 200), (6, &|| leaves.iter().any(|leaf| *leaf >= 1 << n))])?;
    let codes = chain(n, leaves);
    row(&[(16, &|| list.len() < codes.len())])?;
    list[..codes.len()].copy_from_slice(&codes);
    Ok(codes.len() as u64)
}

/// The first pair of openings that disagrees, from 1, the smallest level, and both inputs.
#[derive(Clone, Debug, PartialEq, Eq)]
pub struct Clash {
    pub i: u64,
    pub j: u64,
    pub level: u64,
    pub first: Vec<u8>,
    pub second: Vec<u8>,
}

/// 'Two openings disagree at a shared inner node if their two child labels there, computed or given, differ. If any pair does, the
/// answer names the first pair i < j (by i, then j), the smallest such level, and both 105-byte inputs', which are an edition's.
pub fn first_clash(edition: u64, statement: &Label, n: u64, openings: &[(u64, &[u8])]) -> Option<Clash> {
    let given: Vec<Vec<Vec<u8>>> =
        openings.iter().map(|(leaf, bytes)| inputs(edition, statement, n, *leaf, bytes)).collect();
    for i in 0..openings.len() {
        for j in i + 1..openings.len() {
            for level in 0..n {
                let shared = Node::at(n, openings[i].0).above(level) == Node::at(n, openings[j].0).above(level);
                let (first, second) = (&given[i][(n - level) as usize], &given[j][(n - level) as usize]);
                if shared && first[41..] != second[41..] {
                    return Some(Clash {
                        i: i as u64 + 1,
                        j: j as u64 + 1,
                        level,
                        first: first.clone(),
                        second: second.clone(),
                    });
                }
            }
        }
    }
    None
}

/// The comparison by itself, of openings one after the other. Document 01 has no row for it: 12 (W-206); those of planning, but none to
/// compare is 8 too; then 10 and 13.
pub fn compare(edition: u64, statement: &Label, n: u64, leaves: &[u64], bytes: &[u8]) -> Result<Option<Clash>, u64> {
    let size = || leaves.len() * opening_size(n);
    row(&[
        (12, &|| edition_refused(edition)),
        (1, &|| depth_refused(n)),
        (8, &|| count_refused(leaves.len() as u64)),
        (6, &|| leaves.iter().any(|leaf| *leaf >= 1 << n)),
        (10, &|| bytes.len() < size()),
        (13, &|| bytes.len() > size()),
    ])?;
    let openings: Vec<(u64, &[u8])> = leaves.iter().copied().zip(bytes.chunks_exact(opening_size(n))).collect();
    Ok(first_clash(edition, statement, n, &openings))
}

/// What drawing answers.
#[derive(Clone, Debug, PartialEq, Eq)]
pub enum Drawn {
    /// The refusal, with the opening.
    Refused(u64, u64),
    /// The count of the nodes.
    Chain(u64),
    Clash(Clash),
}

/// 'The leaves opened are those of its challenges 1 to t.'
pub fn leaves_opened(file: &[u8]) -> Vec<u64> {
    let Head { n, t, at, .. } = read_head(file).unwrap();
    let (statement, root) = (label_at(file, at), label_at(file, at + 32));
    (1..=t).map(|i| leaf(n, &statement, &root, i)).collect()
}

/// Row 'Drawing a chain': 'all file checks; 16, if no pair disagrees'. Openings are compared by the file's own edition.
pub fn draw(file: &[u8], statement: &Label, n: u64, t: u64, list: &mut [u64]) -> Drawn {
    if let Err((refusal, opening)) = check(file, statement, n, t) {
        return Drawn::Refused(refusal, opening);
    }
    let leaves = leaves_opened(file);
    let part = |i: u64| {
        let (start, length) = opening_place(file, i);
        &file[start..][..length]
    };
    let openings: Vec<(u64, &[u8])> = leaves.iter().copied().zip((1..=t).map(part)).collect();
    let edition = read_head(file).unwrap().edition;
    if let Some(clash) = first_clash(edition, statement, n, &openings) {
        return Drawn::Clash(clash);
    }
    match plan(n, &leaves, list) {
        Ok(count) => Drawn::Chain(count),
        Err(refusal) => Drawn::Refused(refusal, 0),
    }
}

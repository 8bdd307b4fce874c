//! Document 01, 'Challenges and the file'.
use super::opening::opening_size;
use super::sha256::digest;
use super::tree::{input, Node};
use super::{count_refused, depth_refused, edition_refused, label_at, row, Label};

/// 'SHA-256 of the statement, then the nine ASCII bytes `challenge`, then the root, then i in 4 bytes big-endian. The first n bits
/// of the result are the leaf's position.' In editions 1 and 2 alike.
pub fn leaf(n: u64, statement: &Label, root: &Label, i: u64) -> u64 {
    let mut bytes = statement.to_vec();
    bytes.extend(b"challenge");
    bytes.extend(root);
    bytes.extend((i as u32).to_be_bytes());
    let hash = digest(&bytes);
    let bit = |k: u64| u64::from(hash[k as usize / 8] >> (7 - k % 8) & 1);
    (0..n).fold(0, |leaf, k| 2 * leaf + bit(k))
}

/// Row 'A challenge'. W-206: 12 'comes first where an opening, a head or a challenge is given its edition'.
pub fn challenge(edition: u64, n: u64, statement: &Label, root: &Label, i: u64) -> Result<u64, u64> {
    row(&[(12, &|| edition_refused(edition)), (1, &|| depth_refused(n)), (8, &|| count_refused(i))])?;
    Ok(leaf(n, statement, root, i))
}

/// 'in seven-bit groups, low group first, top bit set where another follows, shortest form'.
pub fn groups(x: u64) -> Vec<u8> {
    if x < 128 {
        return vec![x as u8];
    }
    let mut bytes = vec![(x % 128 + 128) as u8];
    bytes.extend(groups(x / 128));
    bytes
}

/// 'edition (1), n, count t, then statement, root'; W-206: 'The head says 2'.
pub fn head(edition: u64, statement: &Label, root: &Label, n: u64, t: u64) -> Vec<u8> {
    [&groups(edition)[..], &groups(n), &groups(t), statement, root].concat()
}

/// The same for both editions, whose numbers take one byte.
pub fn head_size(n: u64, t: u64) -> usize {
    head(2, &[0; 32], &[0; 32], n, t).len()
}

/// 'and t openings in challenge order'.
pub fn file_size(n: u64, t: u64) -> usize {
    head_size(n, t) + t as usize * opening_size(n)
}

/// Row 'Writing the file's head', with 12 first.
pub fn write_head(edition: u64, statement: &Label, root: &Label, n: u64, t: u64, file: &mut [u8]) -> Result<(), u64> {
    row(&[
        (12, &|| edition_refused(edition)),
        (1, &|| depth_refused(n)),
        (8, &|| count_refused(t)),
        (7, &|| file.len() < file_size(n, t)),
    ])?;
    let head = head(edition, statement, root, n, t);
    file[..head.len()].copy_from_slice(&head);
    Ok(())
}

/// A number of at most so many bytes at a place, and the place after it. '10: bytes end; 11: last of several bytes 0, or the last
/// allowed byte above 127'.
pub fn read_number(bytes: &[u8], at: usize, most: usize) -> Result<(u64, usize), u64> {
    let mut value = 0;
    for i in 0..most {
        let byte = u64::from(*bytes.get(at + i).ok_or(10u64)?);
        value += (byte % 128) << (7 * i);
        if byte < 128 {
            return if byte == 0 && i > 0 { Err(11) } else { Ok((value, at + i + 1)) };
        }
    }
    Err(11)
}

/// What a file's head says.
#[derive(Clone, Copy, Debug, PartialEq, Eq)]
pub struct Head {
    pub edition: u64,
    pub n: u64,
    pub t: u64,
    /// Where its numbers end.
    pub at: usize,
}

/// 'File, each number in turn: …; then 12: edition not 1, or 1, or 8', with W-206's 'neither 1 nor 2'.
pub fn read_head(bytes: &[u8]) -> Result<Head, u64> {
    let (edition, at) = read_number(bytes, 0, 2)?;
    row(&[(12, &|| edition_refused(edition))])?;
    let (n, at) = read_number(bytes, at, 2)?;
    row(&[(1, &|| depth_refused(n))])?;
    let (t, at) = read_number(bytes, at, 2)?;
    row(&[(8, &|| count_refused(t))])?;
    Ok(Head { edition, n, t, at })
}

/// 'an opening is given back as that part of the caller's bytes. The part is empty if a head number is refused, the length is not
/// the layout's, or there is no opening of that number.' Offset and length, 0 and 0 if it is empty.
pub fn opening_place(bytes: &[u8], i: u64) -> (usize, usize) {
    match read_head(bytes) {
        Ok(Head { n, t, at, .. }) if bytes.len() == at + 64 + t as usize * opening_size(n) && (1..=t).contains(&i) => {
            (at + 64 + (i - 1) as usize * opening_size(n), opening_size(n))
        }
        _ => (0, 0),
    }
}

/// 'At each node on its leaf's way to the root an opening gives one hash input': from the leaf to the root. 'a leaf's has the left
/// siblings there; an inner node's has its two child labels, of which the one on the way is computed from below (a leaf's is the
/// given one) and the other is given.' W-206: 'right child before left, and for a leaf the largest level first'.
pub fn inputs(edition: u64, statement: &Label, n: u64, leaf: u64, opening: &[u8]) -> Vec<Vec<u8>> {
    let leaf = Node::at(n, leaf);
    let sibling_label = |l: u64| label_at(opening, 32 * (n - l + 1) as usize);
    let smallest_first: Vec<u64> = (1..=n).filter(|l| leaf.above(*l).is_right()).collect();
    let left: Vec<Label> = match edition {
        1 => smallest_first.iter().map(|l| sibling_label(*l)).collect(),
        _ => smallest_first.iter().rev().map(|l| sibling_label(*l)).collect(),
    };
    let mut inputs = vec![input(statement, leaf, &left)];
    let mut own = label_at(opening, 0);
    for level in (1..=n).rev() {
        let (left, right) = match leaf.above(level).is_right() {
            true => (sibling_label(level), own),
            false => (own, sibling_label(level)),
        };
        let pair = if edition == 1 { [left, right] } else { [right, left] };
        let above = input(statement, leaf.above(level - 1), &pair);
        own = digest(&above);
        inputs.push(above);
    }
    inputs
}

/// 'An opening is right if its leaf label is the hash of its left siblings there, and hashing upward gives the root.' 14, 15.
pub fn right(edition: u64, statement: &Label, n: u64, leaf: u64, root: &Label, opening: &[u8]) -> Result<(), u64> {
    let inputs = inputs(edition, statement, n, leaf, opening);
    row(&[(14, &|| digest(&inputs[0]) != label_at(opening, 0)), (15, &|| digest(&inputs[n as usize]) != *root)])
}

/// Row 'One opening checked', with 12 first.
pub fn check_opening(
    edition: u64,
    statement: &Label,
    n: u64,
    leaf: u64,
    root: &Label,
    opening: &[u8],
) -> Result<(), u64> {
    row(&[
        (12, &|| edition_refused(edition)),
        (1, &|| depth_refused(n)),
        (6, &|| leaf >= 1 << n),
        (10, &|| opening.len() < opening_size(n)),
        (13, &|| opening.len() > opening_size(n)),
    ])?;
    right(edition, statement, n, leaf, root, opening)
}

/// Rows 'File': 'the refusal number with the opening it was found in, from 1, or 0 outside openings'. W-206:
/// 'files of edition 1 are still checked by their own order'.
pub fn check(bytes: &[u8], statement: &Label, n: u64, t: u64) -> Result<(), (u64, u64)> {
    let outside = |number| (number, 0);
    let Head { edition, n: depth, t: count, at } = read_head(bytes).map_err(outside)?;
    let size = at + 64 + count as usize * opening_size(depth);
    row(&[
        (10, &|| bytes.len() < size),
        (13, &|| bytes.len() > size),
        (9, &|| label_at(bytes, at) != *statement || depth != n || count != t),
    ])
    .map_err(outside)?;
    let root = label_at(bytes, at + 32);
    for i in 1..=t {
        let (start, length) = opening_place(bytes, i);
        right(edition, statement, n, leaf(n, statement, &root, i), &root, &bytes[start..][..length])
            .map_err(|number| (number, i))?;
    }
    Ok(())
}

/// 'Where an answer must be one number it is 256 × refusal + opening, and 0 if accepted.'
pub fn code(checked: Result<(), (u64, u64)>) -> u64 {
    match checked {
        Ok(()) => 0,
        Err((refusal, opening)) => 256 * refusal + opening,
    }
}

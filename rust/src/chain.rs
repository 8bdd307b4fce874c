//! Chains, and openings that disagree.
use crate::ffi;
use crate::refusal::{answered, checked, Refusal, Rejected};

/// Writes the nodes on the leaves' ways to the root over the front of the list, in labelling order, each once, as
/// 2^level + position, and gives their count. Leaves may stand in any order and repeat; with none the count is 0 and nothing is
/// written. Refused with 1, 8 (only over 200 leaves), 6, 16, which changes nothing.
pub fn plan(depth: u64, leaves: &[u64], list: &mut [u64]) -> Result<usize, Refusal> {
    // SAFETY: pointers and lengths are those of slices; the list is borrowed alone.
    let planned = unsafe { ffi::mastdock_plan(depth, leaves.as_ptr(), leaves.len(), list.as_mut_ptr(), list.len()) };
    answered(planned.refusal, planned.count as usize)
}

/// Two openings that disagree at a shared inner node: their child labels there, computed or given, differ.
#[derive(Clone, Debug, PartialEq, Eq)]
pub struct Clash {
    /// The first pair, `i` < `j`, of openings numbered from 1, by `i` and then `j`.
    pub i: u64,
    pub j: u64,
    /// The smallest level at which they disagree.
    pub level: u64,
    /// The hash input that opening `i` gives at that node.
    pub first: [u8; 105],
    /// The hash input that opening `j` gives there.
    pub second: [u8; 105],
}

/// A clash of the library's, none where no pair disagrees.
fn found(clash: ffi::Clash) -> Option<Clash> {
    let ffi::Clash { i, j, level, first, second, zero: _ } = clash;
    (i != 0).then_some(Clash { i, j, level, first, second })
}

/// Compares openings of leaves, given one after the other in one piece; they need not be right. Holds a table of 512,000 bytes on
/// the stack: its thread wants 0.6 MB. The inputs of a clash are of this edition. Refused with 12, 1, 8 (not 1 to 200 leaves), 6, 10, 13.
pub fn compare(
    edition: u64,
    statement: &[u8; 32],
    depth: u64,
    leaves: &[u64],
    openings: &[u8],
) -> Result<Option<Clash>, Refusal> {
    // SAFETY: pointers and lengths are those of a reference and slices.
    let compared = unsafe {
        let (leaves_len, openings_len) = (leaves.len(), openings.len());
        ffi::mastdock_compare(edition, statement, depth, leaves.as_ptr(), leaves_len, openings.as_ptr(), openings_len)
    };
    answered(compared.refusal, found(compared.clash))
}

/// What drawing found.
#[allow(clippy::large_enum_variant)] // nothing is allocated
#[derive(Clone, Debug, PartialEq, Eq)]
pub enum Drawing {
    /// A chain: its nodes are the first so many of the list.
    Chain(usize),
    /// Two openings of the file that disagree; the list is as it was.
    Clash(Clash),
}

/// Draws the chain of a file over the front of the list: checks the file as [`check_file`](crate::check_file) does, compares its
/// openings as [`compare`] does, and writes the nodes as [`plan`] does. Holds a table of 512,000 bytes on the stack: its thread
/// wants 0.6 MB. Refused with what refuses the file; then, if no pair disagrees, with 16. A refusal changes nothing.
pub fn draw(file: &[u8], statement: &[u8; 32], depth: u64, count: u64, list: &mut [u64]) -> Result<Drawing, Rejected> {
    // SAFETY: pointers and lengths are those of a reference and slices; the list is borrowed alone.
    let drawn = unsafe {
        ffi::mastdock_draw(file.as_ptr(), file.len(), statement, depth, count, list.as_mut_ptr(), list.len())
    };
    checked(drawn.code)?;
    Ok(match found(drawn.clash) {
        Some(clash) => Drawing::Clash(clash),
        None => Drawing::Chain(drawn.count as usize),
    })
}

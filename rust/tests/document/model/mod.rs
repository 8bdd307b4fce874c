//! Document 01 and the change requests of document 02 that are done, written out in Rust, from the documents and for reading: no
//! care for speed, and nothing taken from the Rattle code. Their sentences are cited. Refusals are their numbers. States are the
//! crate's plain structs.
pub mod chain;
pub mod file;
pub mod opening;
pub mod record;
pub mod run;
pub mod sha256;
pub mod step;
pub mod tree;
pub mod unit;
pub mod writing;

/// A label, a statement or a root.
pub type Label = [u8; 32];

/// W-206: '12 now means neither 1 nor 2'.
pub fn edition_refused(edition: u64) -> bool {
    edition != 1 && edition != 2
}

/// 'n not 1..40'.
pub fn depth_refused(n: u64) -> bool {
    !(1..=40).contains(&n)
}

/// 'i not 1..200', 't not 1..200'; and not 1..200 leaves compared.
pub fn count_refused(x: u64) -> bool {
    !(1..=200).contains(&x)
}

/// W-209: 'Number 2 now means over the smaller of depth and 14'.
pub fn memory_refused(n: u64, m: u64) -> bool {
    m > n.min(14)
}

/// 'Within a place the order is as listed. Each is given just when its condition holds and no earlier one did.' The conditions are
/// functions, since a later one may be meaningless where an earlier one holds.
pub fn row(checks: &[(u64, &dyn Fn() -> bool)]) -> Result<(), u64> {
    match checks.iter().find(|(_, holds)| holds()) {
        Some((number, _)) => Err(*number),
        None => Ok(()),
    }
}

/// The 32 bytes at a place.
pub fn label_at(bytes: &[u8], at: usize) -> Label {
    bytes[at..at + 32].try_into().unwrap()
}

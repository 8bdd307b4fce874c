//! Challenges, the proof file's head, its openings as parts of it, and the checks.
use crate::ffi;
use crate::refusal::{answered, checked, Refusal, Rejected};

/// A part of lent bytes; 0 and 0 where there is none.
#[repr(C)]
#[derive(Clone, Copy, Debug, PartialEq, Eq)]
pub struct Place {
    pub offset: usize,
    pub length: usize,
}

/// The leaf of challenge `i`, from 1. Refused with 12, 1, 8.
pub fn challenge(edition: u64, statement: &[u8; 32], root: &[u8; 32], depth: u64, i: u64) -> Result<u64, Refusal> {
    // SAFETY: the pointers are those of references.
    let challenged = unsafe { ffi::mastdock_challenge(edition, statement, root, depth, i) };
    answered(challenged.refusal, challenged.leaf)
}

/// Writes the head of a file of `count` openings over the front of `file`; the openings follow it in the order of their challenges.
/// Refused with 12, 1, 8, 7 (the whole file must fit), which changes nothing.
pub fn write_head(
    edition: u64,
    statement: &[u8; 32],
    root: &[u8; 32],
    depth: u64,
    count: u64,
    file: &mut [u8],
) -> Result<(), Refusal> {
    // SAFETY: pointers and length are those of references and a slice, which is borrowed alone.
    let refusal =
        unsafe { ffi::mastdock_write_head(edition, statement, root, depth, count, file.as_mut_ptr(), file.len()) };
    answered(refusal, ())
}

/// The numbers of a file's head.
#[derive(Clone, Copy, Debug, PartialEq, Eq)]
pub struct Head {
    pub edition: u64,
    pub depth: u64,
    /// How many openings the file has.
    pub count: u64,
}

/// Reads edition, depth and count out of a file's head, whose first bytes are enough; what follows them is not looked at. The statement
/// is the 32 bytes from [`head_size`](crate::head_size) − 64 on, the root the 32 after it, and the file should be
/// [`file_size`](crate::file_size) bytes long. Refused for the edition with 10, 11, 12, the depth with 10, 11, 1, the count with
/// 10, 11, 8.
pub fn read_head(file: &[u8]) -> Result<Head, Refusal> {
    // SAFETY: pointer and length are a slice's.
    let ffi::HeadRead { refusal, edition, depth, count } =
        unsafe { ffi::mastdock_read_head(file.as_ptr(), file.len()) };
    answered(refusal, Head { edition, depth, count })
}

/// Where opening `i`, from 1, lies in a file: nowhere if a head number is refused, the length is not the layout's, or there is no
/// opening of that number.
pub fn opening_place(file: &[u8], i: u64) -> Place {
    // SAFETY: pointer and length are a slice's.
    unsafe { ffi::mastdock_opening_place(file.as_ptr(), file.len(), i) }
}

/// Opening `i`, from 1, as that part of the file; empty where [`opening_place`] is nowhere.
pub fn opening_part(file: &[u8], i: u64) -> &[u8] {
    let place = opening_place(file, i);
    &file[place.offset..][..place.length]
}

/// Checks one opening of a leaf against a root. Refused with 12, 1, 6, 10, 13, 14, 15.
pub fn check_opening(
    edition: u64,
    statement: &[u8; 32],
    root: &[u8; 32],
    depth: u64,
    leaf: u64,
    opening: &[u8],
) -> Result<(), Refusal> {
    // SAFETY: pointers and length are those of references and a slice.
    let refusal =
        unsafe { ffi::mastdock_check_opening(edition, statement, root, depth, leaf, opening.as_ptr(), opening.len()) };
    answered(refusal, ())
}

/// Checks a file, by the edition that its head says, against the statement, depth and count that are wanted. Refused for the edition
/// with 10, 11, 12, the depth with 10, 11, 1, the count with 10, 11, 8, then with 10, 13, 9, then for each opening with 14, 15.
pub fn check_file(file: &[u8], statement: &[u8; 32], depth: u64, count: u64) -> Result<(), Rejected> {
    // SAFETY: pointers and length are those of a reference and a slice.
    checked(unsafe { ffi::mastdock_check_file(file.as_ptr(), file.len(), statement, depth, count) })
}

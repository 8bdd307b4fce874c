//! Proofs of sequential work of Cohen and Pietrzak, for reports sealed with no network: safe calls of the proved static library
//! `libcapi.a`. Every call is decided for every argument; a refusal is a [`Refusal`] with document 01's number, or a change
//! request's. States are plain data and may be kept and continued later; a run that goes on elsewhere has a record ([`Run::record`]).
//! Up to eight runs may share one [`Unit`] and its budget. All memory is lent by the caller.
//!
//! # Editions
//!
//! The edition of a run, an opening or a file decides in which order a node's label hashes the labels of its parents: in edition 1 the
//! label made first comes first (left child before right, and for a leaf the smallest level first), in edition 2 the label made last
//! (right child before left, and for a leaf the largest level first). New runs have [`NEW_EDITION`]; a run, an opening and a file under
//! writing keep theirs, and a record carries it, so a run of edition 1 comes only from a record of edition 1 or from a [`Run`] with that
//! edition. A file is checked and drawn by the edition that its head says ([`read_head`]).
//!
//! # A report sealed and checked
//!
//! ```
//! use mastdock::{check_file, digest, draw, file_size, head_size, store_size, Drawing, Run, Writing, MAX_CHAIN};
//!
//! # fn main() -> Result<(), Box<dyn std::error::Error>> {
//! let (depth, memory, count) = (8, 3, 5);
//! let statement = digest(b"Hull dry, two plates renewed.")?;
//!
//! // The run: labels are made as many at a time as the budget allows.
//! let mut store = vec![0; store_size(memory).unwrap()];
//! let mut run = Run::start(&statement, depth, memory, &store)?;
//! while run.advance(100, &mut store)?.labels != 0 {}
//! let root = run.root().unwrap();
//!
//! // The file: its head, then the opening of each challenge.
//! let mut file = vec![0; file_size(depth, count).unwrap()];
//! let mut writing = Writing::start(run.edition, &statement, &root, depth, memory, count, &store, &mut file)?;
//! while writing.advance(100, &store, &mut file)?.labels != 0 {}
//!
//! // The check, and the chain of the nodes that were opened.
//! check_file(&file, &statement, depth, count)?;
//! let mut list = [0; MAX_CHAIN];
//! let Drawing::Chain(nodes) = draw(&file, &statement, depth, count, &mut list)? else { panic!("a collision") };
//! assert_eq!(list[nodes - 1], 1);
//!
//! // One byte changed.
//! file[head_size(count).unwrap()] ^= 1;
//! let rejected = check_file(&file, &statement, depth, count).unwrap_err();
//! assert_eq!(rejected.to_string(), "opening 1: leaf label wrong (refusal 14)");
//! assert_eq!(rejected.code(), 256 * 14 + 1);
//! # Ok(())
//! # }
//! ```
#![warn(missing_debug_implementations, unsafe_op_in_unsafe_fn)]

mod chain;
pub mod ffi;
mod file;
mod hash;
mod layout;
mod opening;
mod refusal;
mod run;
mod sizes;
mod unit;
mod writing;

pub use chain::{compare, draw, plan, Clash, Drawing};
pub use file::{challenge, check_file, check_opening, opening_part, opening_place, read_head, write_head, Head, Place};
pub use hash::{digest, digest_blocks, Hash, Hashed};
pub use opening::Opening;
pub use refusal::{Refusal, Rejected};
pub use run::{Made, Run};
pub use sizes::{
    file_size, head_size, labels, labels_anew, opening_size, store_size, HELD_SIZE, MAX_CHAIN, MAX_COUNT, MAX_DEPTH,
    MAX_EDITION, MAX_MEMORY, MAX_RECORD, MAX_RUNS, MAX_STORE, NEW_EDITION,
};
pub use unit::Unit;
pub use writing::Writing;

//! Openings in lent memory.
use crate::ffi;
use crate::refusal::{answered, Refusal};
use crate::run::Made;
use crate::sizes::HELD_SIZE;

/// An opening under way: a run's state with the leaf. Count and held labels are those of the nodes labelled anew. Every value of
/// the fields is possible: one that cannot be continued is refused with 4.
#[repr(C)]
#[derive(Clone, Debug, PartialEq, Eq)]
pub struct Opening {
    pub statement: [u8; 32],
    /// The edition of the run whose store it is.
    pub edition: u64,
    pub depth: u64,
    /// The memory level of the store.
    pub memory: u64,
    pub leaf: u64,
    /// How many labels were made anew, of [`labels_anew`](crate::labels_anew).
    pub made: u64,
    /// 41 places of 32 bytes for held labels.
    pub held: [u8; HELD_SIZE],
}

impl Opening {
    /// A new opening of a leaf: copies what the store holds of it to the first [`opening_size`](crate::opening_size) bytes of the
    /// output. The store is a finished run's of the same edition, statement and depth, and of this memory level or a higher one, also of
    /// 15 to 20 from before W-209. Refused with 12, 1, 2, 3, 6, 7.
    pub fn start(
        edition: u64,
        statement: &[u8; 32],
        depth: u64,
        memory: u64,
        leaf: u64,
        store: &[u8],
        out: &mut [u8],
    ) -> Result<Opening, Refusal> {
        // SAFETY: pointers and lengths are those of references and slices; the output is borrowed alone.
        let started = unsafe {
            ffi::mastdock_opening_start(
                edition,
                statement,
                depth,
                memory,
                leaf,
                store.as_ptr(),
                store.len(),
                out.as_mut_ptr(),
                out.len(),
            )
        };
        answered(started.refusal, started.opening)
    }

    /// Makes anew exactly the smaller of the budget and the labels that remain, gives that number with the blocks of these labels, and
    /// puts the labels of the opening in their places of the output. Refused with 4, 3, 7, which changes nothing.
    pub fn advance(&mut self, budget: u64, store: &[u8], out: &mut [u8]) -> Result<Made, Refusal> {
        // SAFETY: pointers and lengths are those of slices; the output is borrowed alone; every state is allowed.
        let advanced = unsafe {
            ffi::mastdock_opening_advance(
                self.clone(),
                budget,
                store.as_ptr(),
                store.len(),
                out.as_mut_ptr(),
                out.len(),
            )
        };
        *self = advanced.opening;
        answered(advanced.refusal, Made { labels: advanced.labels, blocks: advanced.blocks })
    }
}

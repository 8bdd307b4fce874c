//! The openings of a whole file, written by budgets.
use crate::ffi;
use crate::refusal::{answered, Refusal};
use crate::run::Made;
use crate::sizes::labels_anew;
use crate::Opening;

/// A file under writing. Every value of the fields is possible: one that cannot be continued is refused with 4, which no writing is
/// that [`start`](Writing::start) and [`advance`](Writing::advance) made.
#[repr(C)]
#[derive(Clone, Debug, PartialEq, Eq)]
pub struct Writing {
    pub root: [u8; 32],
    /// How many openings the file has.
    pub count: u64,
    /// The number of the opening under way, from 1.
    pub number: u64,
    pub opening: Opening,
}

impl Writing {
    /// Begins a file of `count` openings over the front of `file`: writes its head and what the store holds of the first opening,
    /// and of the next ones where nothing is to be labelled anew. The store is a finished run's as for an
    /// [`Opening`], and the root its root. Refused with 12, 1, 2, 3, 8, 7 (the whole file must fit), which changes nothing.
    #[allow(clippy::too_many_arguments)] // as many as the call has
    pub fn start(
        edition: u64,
        statement: &[u8; 32],
        root: &[u8; 32],
        depth: u64,
        memory: u64,
        count: u64,
        store: &[u8],
        file: &mut [u8],
    ) -> Result<Writing, Refusal> {
        // SAFETY: pointers and lengths are those of references and slices; the file is borrowed alone.
        let started = unsafe {
            ffi::mastdock_writing_start(
                edition,
                statement,
                root,
                depth,
                memory,
                count,
                store.as_ptr(),
                store.len(),
                file.as_mut_ptr(),
                file.len(),
            )
        };
        answered(started.refusal, started.writing)
    }

    /// Makes anew exactly the smaller of the budget and the labels that remain for all openings, gives that number with the blocks of
    /// these labels, and puts the labels of the openings in their places of the file. The file is done when no label remains: see
    /// [`is_done`](Writing::is_done). Refused with 4, 3, 7, which changes nothing. 4: the opening cannot be continued, the count is
    /// not 1..200, the number not 1..count, or the opening is done but not the last.
    pub fn advance(&mut self, budget: u64, store: &[u8], file: &mut [u8]) -> Result<Made, Refusal> {
        // SAFETY: pointers and lengths are those of slices; the file is borrowed alone; every state is allowed.
        let advanced = unsafe {
            ffi::mastdock_writing_advance(
                self.clone(),
                budget,
                store.as_ptr(),
                store.len(),
                file.as_mut_ptr(),
                file.len(),
            )
        };
        *self = advanced.writing;
        answered(advanced.refusal, Made { labels: advanced.labels, blocks: advanced.blocks })
    }
    /// Whether the whole file is written: the last opening is under way and has no label left to make.
    pub fn is_done(&self) -> bool {
        self.number == self.count && labels_anew(self.opening.depth, self.opening.memory) == Some(self.opening.made)
    }
}

//! Runs in lent memory.
use crate::ffi;
use crate::refusal::{answered, Refusal};
use crate::sizes::{labels, HELD_SIZE};

/// A run. Every value of the fields is possible: one that cannot be continued is refused with 4.
#[repr(C)]
#[derive(Clone, Debug, PartialEq, Eq)]
pub struct Run {
    pub statement: [u8; 32],
    /// The edition, which a run keeps: see the [crate's page](crate#editions).
    pub edition: u64,
    pub depth: u64,
    /// The memory level: the store keeps levels 0 to this one.
    pub memory: u64,
    /// How many labels were made.
    pub made: u64,
    /// 41 places of 32 bytes for held labels.
    pub held: [u8; HELD_SIZE],
}

/// What a call with a budget made. Of a budget of 0, and where no label remains, both numbers are 0.
#[derive(Clone, Copy, Debug, Default, PartialEq, Eq)]
pub struct Made {
    /// How many labels.
    pub labels: u64,
    /// The 64-byte blocks that SHA-256 compressed for just these labels: 2 for an inner node, from 1 to 21 for a leaf. Challenges and
    /// the report's hash are not in it.
    pub blocks: u64,
}

impl Run {
    /// A new run of edition [`NEW_EDITION`](crate::NEW_EDITION), for a store of [`store_size`](crate::store_size) bytes or more, which it
    /// leaves as it is. Refused with 1, 2, 3.
    pub fn start(statement: &[u8; 32], depth: u64, memory: u64, store: &[u8]) -> Result<Run, Refusal> {
        // SAFETY: pointers and lengths are those of a reference and a slice.
        let started = unsafe { ffi::mastdock_run_start(statement, depth, memory, store.as_ptr(), store.len()) };
        answered(started.refusal, started.run)
    }

    /// Makes exactly the smaller of the budget and the labels that remain, and gives that number with the blocks of these labels.
    /// Stored labels are written as made. Refused with 4, 3, which changes nothing.
    pub fn advance(&mut self, budget: u64, store: &mut [u8]) -> Result<Made, Refusal> {
        // SAFETY: pointer and length are a slice's, which is borrowed alone, and every state is allowed.
        let advanced = unsafe { ffi::mastdock_run_advance(self.clone(), budget, store.as_mut_ptr(), store.len()) };
        *self = advanced.run;
        answered(advanced.refusal, Made { labels: advanced.labels, blocks: advanced.blocks })
    }

    /// Writes the run's record over the front of `out` and gives its size, at most [`MAX_RECORD`](crate::MAX_RECORD) bytes.
    /// [`resume`](Run::resume) takes the run up again from it, elsewhere too; the store is not in it. Refused with 4, 7, which writes
    /// nothing.
    pub fn record(&self, out: &mut [u8]) -> Result<usize, Refusal> {
        // SAFETY: pointer and length are a slice's, which is borrowed alone, and every state is allowed.
        let recorded = unsafe { ffi::mastdock_run_record(self.clone(), out.as_mut_ptr(), out.len()) };
        answered(recorded.refusal, recorded.size)
    }

    /// The run of a record, in the record's edition. Over the same store it ends as the run that was written out would have. Places that
    /// hold no label are zero. Refused for the edition with 10, 11, 12, for depth, memory level and labels made with 10, 11 each; then with 4 (no run has
    /// such numbers), 18.
    pub fn resume(record: &[u8]) -> Result<Run, Refusal> {
        // SAFETY: pointer and length are a slice's.
        let started = unsafe { ffi::mastdock_run_resume(record.as_ptr(), record.len()) };
        answered(started.refusal, started.run)
    }

    /// The root's label, if all labels are made.
    pub fn root(&self) -> Option<[u8; 32]> {
        if labels(self.depth) == Some(self.made) {
            self.held.first_chunk().copied()
        } else {
            None
        }
    }
}

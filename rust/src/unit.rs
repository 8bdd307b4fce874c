//! Several runs in one unit, their stores in one piece of lent memory.
use crate::ffi;
use crate::file::Place;
use crate::refusal::{answered, Refusal};
use crate::run::{Made, Run};
use crate::sizes::{HELD_SIZE, MAX_RUNS};
use std::array;

/// A unit: 1 to [`MAX_RUNS`] runs, each with its own statement, edition, depth and memory level. Their stores lie end to end in one slice,
/// in the order of the runs. A budget is spent one label at a time, in turn. Each run's root and store are those that it would have
/// alone; only how far it has come depends on its neighbours.
///
/// Every value of the fields is possible: a unit that has not 1 to 8 runs, or names none of them, is refused with 21, one with a run that
/// cannot be continued with 4.
///
/// ```
/// use mastdock::{digest, store_size, Run, Unit};
///
/// # fn main() -> Result<(), Box<dyn std::error::Error>> {
/// let size = store_size(3).unwrap();
/// let mut store = vec![0; 2 * size];
/// let hull = Run::start(&digest(b"Hull dry.")?, 8, 3, &store[..size])?;
/// let mast = Run::start(&digest(b"Mast sound.")?, 5, 3, &store[size..])?;
///
/// // Seven labels in turn, from run 1 on.
/// let mut unit = Unit::new(&[hull, mast])?;
/// assert_eq!(unit.advance(7, &mut store)?.labels, 7);
/// assert_eq!((unit.runs[0].made, unit.runs[1].made, unit.last), (4, 3, 1));
///
/// // Both to their ends; the second run's own store is a part of the slice.
/// while unit.advance(100, &mut store)?.labels != 0 {}
/// assert!(unit.runs[0].root().is_some() && unit.runs[1].root().is_some());
/// assert_eq!(unit.store_part(2, &store), &store[size..]);
/// # Ok(())
/// # }
/// ```
#[repr(C)]
#[derive(Clone, Debug, PartialEq, Eq)]
pub struct Unit {
    /// How many runs it carries: the first so many of `runs`.
    pub count: u64,
    /// The number, from 1, of the run served last, finished or not; 0 is refused. The next label is of the first unfinished run after it.
    pub last: u64,
    /// Run `i` is `runs[i - 1]`. Places beyond the count are not looked at and stay as they are.
    pub runs: [Run; MAX_RUNS],
}

impl Unit {
    /// A unit of these runs that begins with the first: the last one is named as served last, and places beyond them are all zero.
    /// Refused with 21 if they are not 1 to 8.
    pub fn new(runs: &[Run]) -> Result<Unit, Refusal> {
        if runs.is_empty() || MAX_RUNS < runs.len() {
            return Err(Refusal::Runs);
        }
        let count = runs.len() as u64;
        let none = Run { statement: [0; 32], edition: 0, depth: 0, memory: 0, made: 0, held: [0; HELD_SIZE] };
        Ok(Unit { count, last: count, runs: array::from_fn(|at| runs.get(at).unwrap_or(&none).clone()) })
    }

    /// Makes exactly the smaller of the budget and the labels that remain of all runs, one at a time, in turn, beginning after the run
    /// served last; finished runs are passed over. Gives that number with the blocks of these labels; what one run got is read off its
    /// `made`. Bytes behind the last store stay as they are. Refused with 21, then for each run in order with 4, 3, which changes nothing
    /// in any. Holds copies of the unit on the stack: its thread wants 0.1 MB.
    pub fn advance(&mut self, budget: u64, store: &mut [u8]) -> Result<Made, Refusal> {
        // SAFETY: pointer and length are a slice's, which is borrowed alone, and every state is allowed.
        let advanced = unsafe { ffi::mastdock_unit_advance(self.clone(), budget, store.as_mut_ptr(), store.len()) };
        *self = advanced.unit;
        answered(advanced.refusal, Made { labels: advanced.labels, blocks: advanced.blocks })
    }

    /// Where the store of run `i`, from 1, lies in the slice: nowhere if there are not 1 to 8 runs, no run has that number, or one of runs
    /// 1 to `i` would be refused with 4 or 3.
    pub fn store_place(&self, i: u64, store: &[u8]) -> Place {
        // SAFETY: pointer and length are a slice's, and every state is allowed.
        unsafe { ffi::mastdock_unit_store_place(self.clone(), i, store.as_ptr(), store.len()) }
    }

    /// The store of run `i`, from 1, as that part of the slice, for its openings and its file; empty where
    /// [`store_place`](Unit::store_place) is nowhere.
    pub fn store_part<'a>(&self, i: u64, store: &'a [u8]) -> &'a [u8] {
        let place = self.store_place(i, store);
        &store[place.offset..][..place.length]
    }
}

//! The calls as the static library exports them: the same as `include/mastdock.h`, which says what pointers owe. A pointer may be
//! null where the number of elements is 0. No struct has padding. Nothing here is needed where the safe functions serve.
use crate::{Hash, Opening, Place, Run, Unit, Writing};

#[repr(C)]
#[derive(Clone, Debug, PartialEq, Eq)]
pub struct HashUpdated {
    pub refusal: u64,
    pub hash: Hash,
}

#[repr(C)]
#[derive(Clone, Debug, PartialEq, Eq)]
pub struct HashFinished {
    pub refusal: u64,
    pub blocks: u64,
    pub digest: [u8; 32],
    pub hash: Hash,
}

#[repr(C)]
#[derive(Clone, Debug, PartialEq, Eq)]
pub struct Digested {
    pub refusal: u64,
    pub blocks: u64,
    pub digest: [u8; 32],
}

#[repr(C)]
#[derive(Clone, Debug, PartialEq, Eq)]
pub struct RunStarted {
    pub refusal: u64,
    pub run: Run,
}

#[repr(C)]
#[derive(Clone, Debug, PartialEq, Eq)]
pub struct RunAdvanced {
    pub refusal: u64,
    pub labels: u64,
    pub blocks: u64,
    pub run: Run,
}

#[repr(C)]
#[derive(Clone, Debug, PartialEq, Eq)]
pub struct RunRecorded {
    pub refusal: u64,
    pub size: usize,
}

#[repr(C)]
#[derive(Clone, Debug, PartialEq, Eq)]
pub struct UnitAdvanced {
    pub refusal: u64,
    pub labels: u64,
    pub blocks: u64,
    pub unit: Unit,
}

#[repr(C)]
#[derive(Clone, Debug, PartialEq, Eq)]
pub struct OpeningStarted {
    pub refusal: u64,
    pub opening: Opening,
}

#[repr(C)]
#[derive(Clone, Debug, PartialEq, Eq)]
pub struct OpeningAdvanced {
    pub refusal: u64,
    pub labels: u64,
    pub blocks: u64,
    pub opening: Opening,
}

#[repr(C)]
#[derive(Clone, Debug, PartialEq, Eq)]
pub struct Challenged {
    pub refusal: u64,
    pub leaf: u64,
}

#[repr(C)]
#[derive(Clone, Debug, PartialEq, Eq)]
pub struct WritingStarted {
    pub refusal: u64,
    pub writing: Writing,
}

#[repr(C)]
#[derive(Clone, Debug, PartialEq, Eq)]
pub struct WritingAdvanced {
    pub refusal: u64,
    pub labels: u64,
    pub blocks: u64,
    pub writing: Writing,
}

#[repr(C)]
#[derive(Clone, Debug, PartialEq, Eq)]
pub struct Planned {
    pub refusal: u64,
    pub count: u64,
}

#[repr(C)]
#[derive(Clone, Debug, PartialEq, Eq)]
pub struct HeadRead {
    pub refusal: u64,
    pub edition: u64,
    pub depth: u64,
    pub count: u64,
}

/// Two openings that disagree; all zero where no pair does. The last six bytes are always 0.
#[repr(C)]
#[derive(Clone, Debug, PartialEq, Eq)]
pub struct Clash {
    pub i: u64,
    pub j: u64,
    pub level: u64,
    pub first: [u8; 105],
    pub second: [u8; 105],
    pub zero: [u8; 6],
}

#[repr(C)]
#[derive(Clone, Debug, PartialEq, Eq)]
pub struct Compared {
    pub refusal: u64,
    pub clash: Clash,
}

#[repr(C)]
#[derive(Clone, Debug, PartialEq, Eq)]
pub struct Drawn {
    pub kind: u64,
    pub code: u64,
    pub count: u64,
    pub clash: Clash,
}

extern "C" {
    pub fn mastdock_hash_new() -> Hash;
    pub fn mastdock_hash_update(hash: Hash, part: *const u8, part_len: usize) -> HashUpdated;
    pub fn mastdock_hash_finish(hash: Hash) -> HashFinished;
    pub fn mastdock_digest(message: *const u8, message_len: usize) -> Digested;
    pub fn mastdock_run_start(
        statement: *const [u8; 32],
        depth: u64,
        memory: u64,
        store: *const u8,
        store_len: usize,
    ) -> RunStarted;
    pub fn mastdock_run_advance(run: Run, budget: u64, store: *mut u8, store_len: usize) -> RunAdvanced;
    pub fn mastdock_run_record(run: Run, out: *mut u8, out_len: usize) -> RunRecorded;
    pub fn mastdock_run_resume(record: *const u8, record_len: usize) -> RunStarted;
    pub fn mastdock_unit_advance(unit: Unit, budget: u64, store: *mut u8, store_len: usize) -> UnitAdvanced;
    pub fn mastdock_unit_store_place(unit: Unit, i: u64, store: *const u8, store_len: usize) -> Place;
    pub fn mastdock_opening_start(
        edition: u64,
        statement: *const [u8; 32],
        depth: u64,
        memory: u64,
        leaf: u64,
        store: *const u8,
        store_len: usize,
        out: *mut u8,
        out_len: usize,
    ) -> OpeningStarted;
    pub fn mastdock_opening_advance(
        opening: Opening,
        budget: u64,
        store: *const u8,
        store_len: usize,
        out: *mut u8,
        out_len: usize,
    ) -> OpeningAdvanced;
    pub fn mastdock_challenge(
        edition: u64,
        statement: *const [u8; 32],
        root: *const [u8; 32],
        depth: u64,
        i: u64,
    ) -> Challenged;
    pub fn mastdock_write_head(
        edition: u64,
        statement: *const [u8; 32],
        root: *const [u8; 32],
        depth: u64,
        count: u64,
        file: *mut u8,
        file_len: usize,
    ) -> u64;
    pub fn mastdock_read_head(file: *const u8, file_len: usize) -> HeadRead;
    pub fn mastdock_opening_place(file: *const u8, file_len: usize, i: u64) -> Place;
    pub fn mastdock_check_opening(
        edition: u64,
        statement: *const [u8; 32],
        root: *const [u8; 32],
        depth: u64,
        leaf: u64,
        opening: *const u8,
        opening_len: usize,
    ) -> u64;
    pub fn mastdock_check_file(
        file: *const u8,
        file_len: usize,
        statement: *const [u8; 32],
        depth: u64,
        count: u64,
    ) -> u64;
    pub fn mastdock_writing_start(
        edition: u64,
        statement: *const [u8; 32],
        root: *const [u8; 32],
        depth: u64,
        memory: u64,
        count: u64,
        store: *const u8,
        store_len: usize,
        file: *mut u8,
        file_len: usize,
    ) -> WritingStarted;
    pub fn mastdock_writing_advance(
        writing: Writing,
        budget: u64,
        store: *const u8,
        store_len: usize,
        file: *mut u8,
        file_len: usize,
    ) -> WritingAdvanced;
    pub fn mastdock_plan(depth: u64, leaves: *const u64, leaves_len: usize, list: *mut u64, list_len: usize)
        -> Planned;
    pub fn mastdock_compare(
        edition: u64,
        statement: *const [u8; 32],
        depth: u64,
        leaves: *const u64,
        leaves_len: usize,
        openings: *const u8,
        openings_len: usize,
    ) -> Compared;
    pub fn mastdock_draw(
        file: *const u8,
        file_len: usize,
        statement: *const [u8; 32],
        depth: u64,
        count: u64,
        list: *mut u64,
        list_len: usize,
    ) -> Drawn;
}

//! Sizes and limits; none for arguments outside these limits, which are document 01's as the change requests amend them.

/// The editions that exist are 1 to this one.
pub const MAX_EDITION: u64 = 2;
/// The edition of a new run.
pub const NEW_EDITION: u64 = 2;
/// The largest depth.
pub const MAX_DEPTH: u64 = 40;
/// The largest memory level.
pub const MAX_MEMORY: u64 = 14;
/// The most challenges, openings or leaves.
pub const MAX_COUNT: u64 = 200;
/// The most runs of a unit.
pub const MAX_RUNS: usize = 8;
/// The bytes of a store of the largest memory level: no run asks for more.
pub const MAX_STORE: usize = 1048544;
/// The bytes of 41 held labels.
pub const HELD_SIZE: usize = 1312;
/// The bytes of the longest record of a run.
pub const MAX_RECORD: usize = 1353;
/// The most nodes of a chain.
pub const MAX_CHAIN: usize = 6855;

const fn within(highest: u64, x: u64) -> bool {
    1 <= x && x <= highest
}

/// The bytes of a store of levels 0 to `memory`.
pub const fn store_size(memory: u64) -> Option<usize> {
    if memory <= MAX_MEMORY {
        Some(32 * ((2 << memory) - 1))
    } else {
        None
    }
}

/// The bytes of an opening at this depth.
pub const fn opening_size(depth: u64) -> Option<usize> {
    if within(MAX_DEPTH, depth) {
        Some(32 * (depth as usize + 1))
    } else {
        None
    }
}

/// The bytes of a file before its openings.
pub const fn head_size(count: u64) -> Option<usize> {
    if within(MAX_COUNT, count) {
        Some(if count < 128 { 67 } else { 68 })
    } else {
        None
    }
}

/// The bytes of a file of so many openings at this depth.
pub const fn file_size(depth: u64, count: u64) -> Option<usize> {
    match (head_size(count), opening_size(depth)) {
        (Some(head), Some(opening)) => Some(head + count as usize * opening),
        _ => None,
    }
}

/// The labels of a whole run.
pub const fn labels(depth: u64) -> Option<u64> {
    if within(MAX_DEPTH, depth) {
        Some((2 << depth) - 1)
    } else {
        None
    }
}

/// The labels that an opening makes anew over a store of this memory level.
pub const fn labels_anew(depth: u64, memory: u64) -> Option<u64> {
    if within(MAX_DEPTH, depth) && memory <= depth && memory <= MAX_MEMORY {
        Some((2 << (depth - memory)) - 2)
    } else {
        None
    }
}

// Document 01's table: T5, T8 and T9; W-209; W-201: three numbers of one byte, one of six, the statement and 41 labels.
const _: () = assert!(matches!(store_size(0), Some(32)) && matches!(store_size(10), Some(65504)));
const _: () = assert!(matches!(store_size(MAX_MEMORY), Some(MAX_STORE)) && store_size(MAX_MEMORY + 1).is_none());
const _: () = assert!(MAX_RECORD == 3 + 6 + 32 + HELD_SIZE);
const _: () = assert!(matches!(file_size(1, 1), Some(131)) && matches!(file_size(40, 200), Some(262468)));

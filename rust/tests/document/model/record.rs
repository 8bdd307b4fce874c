//! Document 02, W-201: a run written out as bytes, its record, and taken up elsewhere.
use super::file::{groups, read_number};
use super::run::impossible;
use super::tree::{held, ROOT};
use super::{edition_refused, label_at, row};
use mastdock::Run;

/// 'Held is a label whose parent node in the tree is not yet labelled', 32 bytes each; 'A finished run holds just the root.'
pub fn held_size(n: u64, made: u64) -> usize {
    32 * held(n, ROOT, made).len()
}

/// The run with its places that hold no label set to zero: no record has them.
pub fn tidy(run: &Run) -> Run {
    let mut tidy = run.clone();
    tidy.held[held_size(run.depth, run.made)..].fill(0);
    tidy
}

/// 'edition, depth, memory level and labels made in seven-bit groups (labels made may take six), then the statement, then the held
/// labels only, in the order made.' W-206: 'The head says 2 and so does a paused record'.
pub fn record_of(run: &Run) -> Vec<u8> {
    let numbers = [run.edition, run.depth, run.memory, run.made].map(groups).concat();
    [&numbers[..], &run.statement, &run.held[..held_size(run.depth, run.made)]].concat()
}

/// 'Writing a record: 4, then 7 for a short buffer.' How many bytes were written.
pub fn write(run: &Run, out: &mut [u8]) -> Result<usize, u64> {
    row(&[
        (4, &|| impossible(run.edition, run.depth, run.memory, run.made)),
        (7, &|| out.len() < record_of(run).len()),
    ])?;
    let record = record_of(run);
    out[..record.len()].copy_from_slice(&record);
    Ok(record.len())
}

/// '18, the record's length is not what its numbers require; the order is 10 and 11 for each number, 12 after the edition, 4 after all
/// four, then 18'.
pub fn read(bytes: &[u8]) -> Result<Run, u64> {
    let (edition, at) = read_number(bytes, 0, 2)?;
    row(&[(12, &|| edition_refused(edition))])?;
    let (n, at) = read_number(bytes, at, 2)?;
    let (m, at) = read_number(bytes, at, 2)?;
    let (made, at) = read_number(bytes, at, 6)?;
    row(&[(4, &|| impossible(edition, n, m, made)), (18, &|| bytes.len() != at + 32 + held_size(n, made))])?;
    let labels = &bytes[at + 32..];
    let mut held = [0; 1312];
    held[..labels.len()].copy_from_slice(labels);
    Ok(Run { statement: label_at(bytes, at), edition, depth: n, memory: m, made, held })
}

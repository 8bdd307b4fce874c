//! A whole file written by budgets. Document 01 has no row for it; docs/DECISIONS.md, 'The file', says what is done: starting takes
//! the checks 12, 1, 2, 3 of 'Starting an opening', then 8 and 7 of the head; the next opening is begun as soon as one is done.
use super::file::{file_size, head_size, leaf, write_head};
use super::opening::{copy_stored, impossible, new, nodes_anew, opening_size, step_anew};
use super::run::store_size;
use super::{count_refused, depth_refused, edition_refused, memory_refused, row, Label};
use mastdock::{Made, Writing};

/// Opening i's part of the file.
fn part(n: u64, t: u64, i: u64, file: &mut [u8]) -> &mut [u8] {
    &mut file[head_size(n, t) + (i - 1) as usize * opening_size(n)..][..opening_size(n)]
}

/// Begins opening `number`, and the next ones as long as there is nothing to label.
fn begin(w: &mut Writing, store: &[u8], file: &mut [u8]) {
    let (statement, n, m) = (w.opening.statement, w.opening.depth, w.opening.memory);
    let leaf = leaf(n, &statement, &w.root, w.number);
    w.opening = new(w.opening.edition, &statement, n, m, leaf);
    copy_stored(n, m, leaf, store, part(n, w.count, w.number, file));
    follow(w, store, file);
}

/// The opening under way is done and is not the last.
fn done_before_last(w: &Writing) -> bool {
    w.opening.made == nodes_anew(w.opening.depth, w.opening.memory) && w.number < w.count
}

/// The next opening, if the one under way is done and is not the last.
fn follow(w: &mut Writing, store: &[u8], file: &mut [u8]) {
    if done_before_last(w) {
        w.number += 1;
        begin(w, store, file);
    }
}

#[allow(clippy::too_many_arguments)]
pub fn start(
    edition: u64,
    statement: &Label,
    root: &Label,
    n: u64,
    m: u64,
    t: u64,
    store: &[u8],
    file: &mut [u8],
) -> Result<Writing, u64> {
    row(&[
        (12, &|| edition_refused(edition)),
        (1, &|| depth_refused(n)),
        (2, &|| memory_refused(n, m)),
        (3, &|| store.len() < store_size(m)),
        (8, &|| count_refused(t)),
        (7, &|| file.len() < file_size(n, t)),
    ])?;
    write_head(edition, statement, root, n, t, file)?;
    let mut writing = Writing { root: *root, count: t, number: 1, opening: new(edition, statement, n, m, 0) };
    begin(&mut writing, store, file);
    Ok(writing)
}

/// 4 'also for a count or an opening's number that cannot be, and for an opening that is done and not the last'; then 3 and 7. W-207:
/// blocks of the labels alone, not of the challenges.
pub fn advance(w: &mut Writing, budget: u64, store: &[u8], file: &mut [u8]) -> Result<Made, u64> {
    let (n, m) = (w.opening.depth, w.opening.memory);
    row(&[
        (4, &|| impossible(&w.opening)),
        (4, &|| count_refused(w.count) || w.number < 1 || w.number > w.count || done_before_last(w)),
        (3, &|| store.len() < store_size(m)),
        (7, &|| file.len() < file_size(n, w.count)),
    ])?;
    let anew = nodes_anew(n, m);
    let remaining = (w.count - w.number) * anew + (anew - w.opening.made);
    let labels = budget.min(remaining);
    let mut blocks = 0;
    for _ in 0..labels {
        blocks += step_anew(&mut w.opening, store, part(n, w.count, w.number, file));
        follow(w, store, file);
    }
    Ok(Made { labels, blocks })
}

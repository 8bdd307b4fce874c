//! Document 01, 'Runs in lent memory': runs.
use super::step::step;
use super::tree::{cost, size, Node, ROOT};
use super::{depth_refused, edition_refused, memory_refused, row, Label};
use mastdock::{Made, Run};

/// 'It needs 32 × (2^(m+1) − 1) bytes'.
pub fn store_size(m: u64) -> usize {
    32 * ((2 << m) - 1)
}

/// 'level l, position p, takes 32 bytes from 32 × (2^l − 1 + p)'.
pub fn slot(v: Node) -> usize {
    32 * ((1 << v.level) - 1 + v.position as usize)
}

/// 'A new run has made 0 labels and all its places are zero; starting it writes nothing to the store.' Row 'Starting a run'.
/// W-206: 'New runs write 2'.
pub fn start(statement: &Label, n: u64, m: u64, store: &[u8]) -> Result<Run, u64> {
    row(&[(1, &|| depth_refused(n)), (2, &|| memory_refused(n, m)), (3, &|| store.len() < store_size(m))])?;
    Ok(Run { statement: *statement, edition: 2, depth: n, memory: m, made: 0, held: [0; 1312] })
}

/// The condition of 4: 'n not 1..40, m over min(n, 20), or more labels made than there are to make', with W-209's 14 for 20.
/// W-206: 'a run keeps its edition, and one that does not exist gets 4'.
pub fn impossible(edition: u64, n: u64, m: u64, made: u64) -> bool {
    edition_refused(edition) || depth_refused(n) || memory_refused(n, m) || made > size(n)
}

/// 'A call with a budget labels exactly the smaller of the budget and what remains, reports that number, and hands back the run as
/// it now is. Stored labels are written as made.' Row 'Continuing a run'. W-207: 'the sum over exactly the labels they made in that
/// call, beside the label count'.
pub fn advance(run: &mut Run, budget: u64, store: &mut [u8]) -> Result<Made, u64> {
    let (n, m) = (run.depth, run.memory);
    row(&[(4, &|| impossible(run.edition, n, m, run.made)), (3, &|| store.len() < store_size(m))])?;
    let labels = budget.min(size(n) - run.made);
    let mut blocks = 0;
    for _ in 0..labels {
        let none = |w: Node| unreachable!("{w:?} is in the tree");
        let (v, label) = step(run.edition, &run.statement, n, ROOT, run.made, &mut run.held, &none);
        if v.level <= m {
            store[slot(v)..][..32].copy_from_slice(&label);
        }
        run.made += 1;
        blocks += cost(n, v);
    }
    Ok(Made { labels, blocks })
}

//! Document 01, 'Runs in lent memory': openings.
use super::run::{slot, store_size};
use super::step::step;
use super::tree::{cost, size, Node};
use super::{depth_refused, edition_refused, label_at, memory_refused, row, Label};
use mastdock::{Made, Opening};

/// '32 × (n + 1) bytes'.
pub fn opening_size(n: u64) -> usize {
    32 * (n as usize + 1)
}

/// 'the 2^(n−m+1) − 2 nodes strictly below the leaf's ancestor on level m'.
pub fn nodes_anew(n: u64, m: u64) -> u64 {
    size(n - m) - 1
}

/// Where a node's label belongs in an opening: 'the leaf's label, then its path's siblings from level n to level 1'.
fn place(n: u64, leaf: u64, v: Node) -> Option<usize> {
    let leaf = Node::at(n, leaf);
    if v == leaf {
        return Some(0);
    }
    (1..=n).find(|l| leaf.above(*l).sibling() == v).map(|l| 32 * (n - l + 1) as usize)
}

/// 'count and held labels are those of the nodes it labels anew, 0 and none at the start.'
pub fn new(edition: u64, statement: &Label, n: u64, m: u64, leaf: u64) -> Opening {
    Opening { statement: *statement, edition, depth: n, memory: m, leaf, made: 0, held: [0; 1312] }
}

/// 'Starting it copies what levels 1 to m of the store hold of it and writes no other byte.'
pub fn copy_stored(n: u64, m: u64, leaf: u64, store: &[u8], out: &mut [u8]) {
    let way = (1..=m).map(|l| Node::at(n, leaf).above(l));
    for v in way.flat_map(|v| [v, v.sibling()]) {
        if let Some(at) = place(n, leaf, v) {
            out[at..at + 32].copy_from_slice(&label_at(store, slot(v)));
        }
    }
}

/// Row 'Starting an opening'. W-206: 12 'comes first where an opening … is given its edition'.
pub fn start(
    edition: u64,
    statement: &Label,
    n: u64,
    m: u64,
    leaf: u64,
    store: &[u8],
    out: &mut [u8],
) -> Result<Opening, u64> {
    row(&[
        (12, &|| edition_refused(edition)),
        (1, &|| depth_refused(n)),
        (2, &|| memory_refused(n, m)),
        (3, &|| store.len() < store_size(m)),
        (6, &|| leaf >= 1 << n),
        (7, &|| out.len() < opening_size(n)),
    ])?;
    copy_stored(n, m, leaf, store, out);
    Ok(new(edition, statement, n, m, leaf))
}

/// The condition of 4: '(also a leaf of 2^n or more)'; W-206: or an edition that does not exist.
pub fn impossible(o: &Opening) -> bool {
    let (n, m) = (o.depth, o.memory);
    edition_refused(o.edition)
        || depth_refused(n)
        || memory_refused(n, m)
        || o.made > nodes_anew(n, m)
        || o.leaf >= 1 << n
}

/// One label anew. 'Left siblings on levels 1 to m are read from the store lent to that call'. Gives its blocks.
pub fn step_anew(o: &mut Opening, store: &[u8], out: &mut [u8]) -> u64 {
    let (n, m) = (o.depth, o.memory);
    let top = Node::at(n, o.leaf).above(m);
    let stored = |w: Node| {
        assert!((1..=m).contains(&w.level));
        label_at(store, slot(w))
    };
    let (v, label) = step(o.edition, &o.statement, n, top, o.made, &mut o.held, &stored);
    if let Some(at) = place(n, o.leaf, v) {
        out[at..at + 32].copy_from_slice(&label);
    }
    o.made += 1;
    cost(n, v)
}

/// 'Its budgeted run labels anew, in order, the nodes …, putting each label that belongs to the opening in its place.' Row
/// 'Continuing an opening'. W-207: 'Labelling and opening report the sum' of the blocks.
pub fn advance(o: &mut Opening, budget: u64, store: &[u8], out: &mut [u8]) -> Result<Made, u64> {
    row(&[
        (4, &|| impossible(o)),
        (3, &|| store.len() < store_size(o.memory)),
        (7, &|| out.len() < opening_size(o.depth)),
    ])?;
    let labels = budget.min(nodes_anew(o.depth, o.memory) - o.made);
    let blocks = (0..labels).map(|_| step_anew(o, store, out)).sum();
    Ok(Made { labels, blocks })
}

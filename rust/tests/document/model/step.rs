//! One label more, for any state: what runs and openings share.
use super::tree::{hashed_parents, held, in_order, label, Node};
use super::{label_at, Label};

/// Makes the next label of the nodes at and below `top`, of which `made` are labelled, and updates the held labels. Labels from
/// outside of that subtree are `outside`'s. Gives the node and its label. Only the order hashed depends on the edition: 'held labels
/// stand in the order made' in both.
pub fn step(
    edition: u64,
    statement: &Label,
    n: u64,
    top: Node,
    made: u64,
    places: &mut [u8],
    outside: &dyn Fn(Node) -> Label,
) -> (Node, Label) {
    let v = in_order(n, top, made);
    let before = held(n, top, made);
    let after = held(n, top, made + 1);
    let old = places.to_vec();
    let known = |w: &Node| match before.iter().position(|x| x == w) {
        Some(place) => label_at(&old, 32 * place),
        None => outside(*w),
    };
    let hashed: Vec<Label> = hashed_parents(edition, n, v).iter().map(known).collect();
    let new = label(statement, v, &hashed);
    // 'held labels stand in the order made, from the first place'
    for (place, w) in after.iter().enumerate() {
        let label = if *w == v { new } else { known(w) };
        places[32 * place..][..32].copy_from_slice(&label);
    }
    // 'and a place given up is set to zero'
    for place in after.len()..before.len() {
        places[32 * place..][..32].fill(0);
    }
    (v, new)
}

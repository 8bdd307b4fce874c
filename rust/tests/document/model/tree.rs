//! Document 01, 'The tree'.
use super::sha256::{blocks, digest};
use super::Label;
use std::cmp::Reverse;
use std::collections::HashMap;

#[derive(Clone, Copy, Debug, PartialEq, Eq, Hash)]
pub struct Node {
    pub level: u64,
    pub position: u64,
}

/// 'the root, which is level 0, position 0'.
pub const ROOT: Node = Node { level: 0, position: 0 };

impl Node {
    pub fn at(level: u64, position: u64) -> Node {
        Node { level, position }
    }

    /// 'children 2p and 2p + 1 on level l + 1'.
    pub fn left(self) -> Node {
        Node::at(self.level + 1, 2 * self.position)
    }

    pub fn right(self) -> Node {
        Node::at(self.level + 1, 2 * self.position + 1)
    }

    pub fn is_right(self) -> bool {
        self.position % 2 == 1
    }

    /// The other child of the same node.
    pub fn sibling(self) -> Node {
        Node::at(self.level, self.position ^ 1)
    }

    /// The node of a smaller level on the way to the root, or the node itself.
    pub fn above(self, level: u64) -> Node {
        Node::at(level, self.position >> (self.level - level))
    }
}

/// 'There are N = 2^(n+1) − 1 nodes', in a subtree of height n.
pub fn size(height: u64) -> u64 {
    (2 << height) - 1
}

/// 'An inner node's parents are its two children. A leaf's are the left siblings of nodes on its way to the root, itself
/// included'; here in the order of edition 1: 'left child before right, and for a leaf smallest level first'.
pub fn parents(n: u64, v: Node) -> Vec<Node> {
    if v.level < n {
        return vec![v.left(), v.right()];
    }
    (1..=n).map(|level| v.above(level)).filter(|w| w.is_right()).map(Node::sibling).collect()
}

/// The parents in the order in which an edition hashes their labels. W-206: 'the label made last comes first after the position'.
pub fn hashed_parents(edition: u64, n: u64, v: Node) -> Vec<Node> {
    let mut nodes = parents(n, v);
    match edition {
        1 => {}
        2 => nodes.sort_by_key(|w| Reverse(place_in_order(n, *w))),
        _ => unreachable!("no edition {edition}"),
    }
    nodes
}

/// 'statement (32 bytes), level (1 byte), position (8 bytes, big-endian), then the parents' labels'.
pub fn input(statement: &Label, v: Node, labels: &[Label]) -> Vec<u8> {
    let mut bytes = statement.to_vec();
    bytes.push(v.level as u8);
    bytes.extend(v.position.to_be_bytes());
    bytes.extend(labels.concat());
    bytes
}

/// The length of that: 41 bytes before the labels, and 32 for each.
pub fn input_size(n: u64, v: Node) -> u64 {
    41 + 32 * parents(n, v).len() as u64
}

/// W-207: the blocks that are compressed for a node's label.
pub fn cost(n: u64, v: Node) -> u64 {
    blocks(input_size(n, v))
}

/// 'A label is SHA-256 of' that.
pub fn label(statement: &Label, v: Node, labels: &[Label]) -> Label {
    digest(&input(statement, v, labels))
}

/// 'Labelling order: a left subtree, then the right, then the node above': place `k`, from 0, in the subtree of a node.
pub fn in_order(n: u64, top: Node, k: u64) -> Node {
    if top.level == n {
        return top;
    }
    let below = size(n - top.level - 1);
    match k {
        k if k < below => in_order(n, top.left(), k),
        k if k < 2 * below => in_order(n, top.right(), k - below),
        _ => top,
    }
}

/// The place of a node in the labelling order of the whole tree.
pub fn place_in_order(n: u64, v: Node) -> u64 {
    let left_of_way: u64 = (1..=v.level).filter(|l| v.above(*l).is_right()).map(|l| size(n - l)).sum();
    left_of_way + size(n - v.level) - 1
}

/// 'Held is a label whose parent node in the tree is not yet labelled; held labels stand in the order made': those of a subtree of
/// which the first `k` labels are made.
pub fn held(n: u64, top: Node, k: u64) -> Vec<Node> {
    if k == 0 {
        return vec![];
    }
    if k == size(n - top.level) {
        return vec![top];
    }
    let below = size(n - top.level - 1);
    let mut nodes = held(n, top.left(), k.min(below));
    nodes.extend(held(n, top.right(), k.saturating_sub(below).min(below)));
    nodes
}

/// All labels of a tree in an edition, by the definition of a label alone.
pub struct Labels {
    pub edition: u64,
    pub statement: Label,
    pub n: u64,
    labels: HashMap<Node, Label>,
}

impl Labels {
    pub fn of(edition: u64, statement: Label, n: u64) -> Labels {
        let mut labels = HashMap::new();
        for k in 0..size(n) {
            let v = in_order(n, ROOT, k);
            let hashed: Vec<Label> = hashed_parents(edition, n, v).iter().map(|w| labels[w]).collect();
            labels.insert(v, label(&statement, v, &hashed));
        }
        Labels { edition, statement, n, labels }
    }

    pub fn get(&self, v: Node) -> Label {
        self.labels[&v]
    }

    pub fn root(&self) -> Label {
        self.get(ROOT)
    }

    /// 'The store keeps levels 0 to m', as a finished run leaves it.
    pub fn store(&self, m: u64) -> Vec<u8> {
        let levels = (0..=m).flat_map(|l| (0..1 << l).map(move |p| Node::at(l, p)));
        levels.flat_map(|v| self.get(v)).collect()
    }

    /// 'An opening is the leaf's label, then its path's siblings from level n to level 1'.
    pub fn opening(&self, leaf: u64) -> Vec<u8> {
        let leaf = Node::at(self.n, leaf);
        let siblings = (1..=self.n).rev().map(|l| leaf.above(l).sibling());
        std::iter::once(leaf).chain(siblings).flat_map(|v| self.get(v)).collect()
    }
}

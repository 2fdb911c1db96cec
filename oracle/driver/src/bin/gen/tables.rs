//! Tables to ask about.

use oracle_driver::table::*;

pub fn leaf(kind: u8) -> Node {
    Node { kind, kids: vec![] }
}

pub fn with(kind: u8, kids: &[usize]) -> Node {
    Node { kind, kids: kids.to_vec() }
}

/// A table whose root is the last node.
pub fn rooted(nodes: Vec<Node>) -> Table {
    let root = nodes.len() - 1;
    Table { nodes, root }
}

/// The fewest entries a value of each node has.
pub fn fewest(t: &Table) -> Vec<u64> {
    let mut min: Vec<u64> = vec![];
    for node in &t.nodes {
        let kids = node.kids.iter().map(|&k| min[k]);
        min.push(1u64.saturating_add(match node.kind {
            STRUCT => kids.fold(0, u64::saturating_add),
            ENUM => kids.min().unwrap_or(0),
            _ => 0,
        }));
    }
    min
}

pub const LEAVES: [u8; 27] =
    [0, 1, 2, 3, 4, 5, 6, 7, 8, 9, 10, 11, 12, 13, 14, 20, 21, 22, 23, 24, 25, 26, 27, 28, 29, 30, 31];

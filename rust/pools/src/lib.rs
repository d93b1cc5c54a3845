//! Well-formed pools from a table of nodes. Not proved; the library's own check says whether a pool is well-formed.
#![deny(warnings)]
#![forbid(unsafe_code)]

use std::collections::BTreeMap;

/// The data bitmap of each node, by its depth and its bits: the order of the table is the order of a pool.
pub type Table = BTreeMap<(u32, u64), u32>;

/// The bits of a node's depth in a key, and none after them.
fn cut(key: u64, len: u32) -> u64 {
    match len {
        0 => 0,
        _ => key >> (64 - len) << (64 - len),
    }
}

/// The node above, and the child bit below it.
pub fn parent((depth, key): (u32, u64)) -> ((u32, u64), u32) {
    let up = depth - 5;
    ((up, cut(key, up)), (key << up >> 59) as u32)
}

/// Adds a node and those above it.
pub fn add_node(table: &mut Table, node: (u32, u64)) {
    let mut here = Some(node);
    while let Some(node) = here {
        table.entry(node).or_insert(0);
        here = (node.0 > 0).then(|| parent(node).0);
    }
}

/// Adds the prefix of the first `len` bits of `key`; false if it was there.
pub fn add_prefix(table: &mut Table, key: u64, len: u32) -> bool {
    let depth = len / 5 * 5;
    let node = (depth, cut(key, depth));
    add_node(table, node);
    let bits = len - depth;
    let value = match bits {
        0 => 0,
        _ => key << depth >> (64 - bits),
    };
    let data = table.entry(node).or_insert(0);
    let bit = 1 << ((1 << bits) - 1 + value);
    let is_new = *data & bit == 0;
    *data |= bit;
    is_new
}

/// The words of a table's pool: the table has the node above each of its nodes.
pub fn words(table: &Table) -> Vec<u32> {
    let mut children: Table = BTreeMap::from([((0, 0), 0)]);
    for &node in table.keys().filter(|node| node.0 > 0) {
        let (up, bit) = parent(node);
        *children.entry(up).or_default() |= 1 << bit;
    }
    let (mut first_child, mut first_value) = (1, 0);
    let mut words = Vec::with_capacity(4 * table.len());
    for (node, &data) in table {
        let child = children.get(node).copied().unwrap_or(0);
        words.extend([data, child, first_child, first_value]);
        first_child += child.count_ones();
        first_value += data.count_ones();
    }
    words
}

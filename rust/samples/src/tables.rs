//! Well-formed pools by way of a table of nodes.

use crate::random::Random;
use pools::{parent, Table};

/// The last depth that has nodes.
pub(crate) fn last_depth(width: u32) -> u32 {
    width / 5 * 5
}

/// The data bits that a node at this depth may have.
pub fn usable(width: u32, depth: u32) -> u32 {
    let bits = (width - depth).min(4);
    ((1u64 << ((2 << bits) - 1)) - 1) as u32
}

/// A data bitmap: none, one bit, some bits, or seldom all.
pub(crate) fn some_data(random: &mut Random, width: u32, depth: u32) -> u32 {
    let word = random.word() as u32;
    let wanted = match random.below(20) {
        0..=3 => 0,
        4..=9 => 1 << random.below(31),
        10..=14 => 1 << random.below(7) | 1 << random.below(31),
        15..=18 => word & random.word() as u32 & random.word() as u32,
        _ => u32::MAX,
    };
    wanted & usable(width, depth)
}

/// A table of this many nodes, each put below one that is drawn from all.
pub fn large(random: &mut Random, width: u32, nodes: usize) -> Table {
    let mut order = vec![(0, 0)];
    let mut table = Table::from([((0, 0), some_data(random, width, 0))]);
    while order.len() < nodes {
        let (depth, key) = order[random.below(order.len())];
        if depth >= last_depth(width) {
            continue;
        }
        let node = (depth + 5, key | (random.below(32) as u64) << 59 >> depth);
        if let std::collections::btree_map::Entry::Vacant(place) = table.entry(node) {
            place.insert(some_data(random, width, depth + 5));
            order.push(node);
        }
    }
    table
}

/// The same table with the data of every third node drawn anew and one node in twenty cut off with all below it.
pub fn varied(random: &mut Random, width: u32, table: &Table) -> Table {
    let mut other = Table::new();
    for (&node, &data) in table {
        let kept = node.0 == 0 || (other.contains_key(&parent(node).0) && !random.once_in(20));
        if kept {
            let anew = random.once_in(3);
            other.insert(
                node,
                if anew {
                    some_data(random, width, node.0)
                } else {
                    data
                },
            );
        }
    }
    other
}

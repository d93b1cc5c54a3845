//! The tidy pool of a list of entries.

use crate::pool::{Entry, NODE_WORDS, STEP};
use crate::prefix::Prefix;
use std::collections::BTreeMap;

/// Where a node stands; the derived order, depth first and then key, is the order of a pool's nodes.
#[derive(Clone, Copy, Debug, PartialEq, Eq, PartialOrd, Ord)]
pub(crate) struct Place {
    pub depth: u32,
    pub key: u64,
}

/// The nodes of a pool with their data bitmaps.
pub(crate) type Table = BTreeMap<Place, u32>;

/// A tidy pool's words, and the old value index of each new one.
pub(crate) struct TidyPool {
    pub words: Vec<u32>,
    pub values: Vec<u32>,
}

/// D7: the pool of exactly these prefixes in which every node but the root is needed.
pub(crate) fn tidy_pool(entries: &[Entry]) -> TidyPool {
    let mut by_place = entries.to_vec();
    by_place.sort_by_key(|e| (Place::of(e.prefix), data_bit(e.prefix)));
    let prefixes = entries.iter().map(|e| e.prefix);
    TidyPool {
        words: words(&table(prefixes)),
        values: by_place.iter().map(|e| e.value).collect(),
    }
}

impl Place {
    /// The root node's place.
    pub const ROOT: Place = Place { depth: 0, key: 0 };

    /// The place of the node that holds this prefix.
    pub fn of(prefix: Prefix) -> Place {
        Place::on_path(prefix, prefix.len / STEP * STEP)
    }

    /// The place at this depth on the way down to the prefix.
    fn on_path(prefix: Prefix, depth: u32) -> Place {
        let key = Prefix::cut(prefix.key, depth).key;
        Place { depth, key }
    }

    /// The place as the prefix that leads all in the node.
    pub fn prefix(self) -> Prefix {
        Prefix {
            key: self.key,
            len: self.depth,
        }
    }

    /// The parent's place and the child bit there; the root has none.
    fn parent(self) -> Option<(Place, u32)> {
        let depth = self.depth.checked_sub(STEP)?;
        let parent = Place::on_path(self.prefix(), depth);
        Some((parent, 1 << self.prefix().last_bits(STEP)))
    }
}

/// The data bit of a prefix in its node: 2^n - 1 + v.
pub(crate) fn data_bit(prefix: Prefix) -> u32 {
    let count = prefix.len % STEP;
    (1 << count) - 1 + prefix.last_bits(count)
}

/// The root, and for every prefix the nodes down to its own with its data bit.
pub(crate) fn table(prefixes: impl Iterator<Item = Prefix>) -> Table {
    let mut table = Table::from([(Place::ROOT, 0)]);
    for prefix in prefixes {
        add_nodes(&mut table, prefix);
        *table.entry(Place::of(prefix)).or_insert(0) |= 1 << data_bit(prefix);
    }
    table
}

/// Adds the nodes on the way down to a prefix, its own node included.
pub(crate) fn add_nodes(table: &mut Table, prefix: Prefix) {
    for depth in (0..=prefix.len).step_by(STEP as usize) {
        table.entry(Place::on_path(prefix, depth)).or_insert(0);
    }
}

/// The words of the pool with these nodes; each node's parent must be there.
pub(crate) fn words(table: &Table) -> Vec<u32> {
    let mut child_bits = Table::new();
    for (parent, bit) in table.keys().filter_map(|place| place.parent()) {
        *child_bits.entry(parent).or_insert(0) |= bit;
    }
    let mut words = Vec::with_capacity(table.len() * NODE_WORDS);
    let mut first_child = 1;
    let mut first_value = 0;
    for (place, &data) in table {
        let child = child_bits.get(place).copied().unwrap_or(0);
        words.extend([data, child, first_child, first_value]);
        first_child += child.count_ones();
        first_value += data.count_ones();
    }
    words
}

//! The flat pool: its check, and its entries as a sorted list.

use crate::prefix::{Prefix, Root};

/// Words of one node in a pool.
pub(crate) const NODE_WORDS: usize = 4;
/// Bits between a node and its child.
pub(crate) const STEP: u32 = 5;
/// More nodes than this are fault 2.
const MOST_NODES: usize = 65_536;

/// A prefix in a pool with its value index.
#[derive(Clone, Copy, Debug, PartialEq, Eq)]
pub(crate) struct Entry {
    pub prefix: Prefix,
    pub value: u32,
}

/// The first fault of a pool: its number, 1 to 8, and its node.
#[derive(Clone, Copy, Debug, PartialEq, Eq)]
pub(crate) struct Fault {
    pub number: u64,
    pub node: u64,
}

/// A well-formed pool, read into its entries in prefix order.
pub(crate) struct Pool {
    entries: Vec<Entry>,
}

impl Pool {
    /// Checks the words and reads them; the width is 32 or 64.
    pub fn read(width: u32, words: &[u32]) -> Result<Pool, Fault> {
        match first_fault(width, words) {
            Some(fault) => Err(fault),
            None => {
                let mut entries = entries(words);
                entries.sort_by_key(|entry| entry.prefix);
                Ok(Pool { entries })
            }
        }
    }

    /// The entries that the root leads, in prefix order.
    pub fn view(&self, root: Root) -> Vec<Entry> {
        let root = root.prefix();
        let inside = self.entries.iter().filter(|e| root.leads(e.prefix));
        inside.copied().collect()
    }
}

/// The four words of a node.
#[derive(Clone, Copy)]
struct Node {
    data: u32,
    child: u32,
    first_child: u32,
    first_value: u32,
}

/// The pool's nodes in their order; words left over at the end are no node.
fn nodes(words: &[u32]) -> impl Iterator<Item = Node> + '_ {
    words.chunks_exact(NODE_WORDS).map(|node| Node {
        data: node[0],
        child: node[1],
        first_child: node[2],
        first_value: node[3],
    })
}

/// The places of the ones in a bitmap, from bit 0 upwards.
pub(crate) fn ones(bitmap: u32) -> impl Iterator<Item = u32> {
    (0..32).filter(move |bit| bitmap >> bit & 1 == 1)
}

/// Data bit `bit`, 2^n - 1 + v, as the pair n and v.
fn bits_and_value(bit: u32) -> (u32, u32) {
    let count = (bit + 1).ilog2();
    (count, bit + 1 - (1 << count))
}

/// True if a node at this depth may have this data bit.
pub(crate) fn may_hold(width: u32, depth: u32, bit: u32) -> bool {
    bit < 31 && depth + bits_and_value(bit).0 <= width
}

/// The depth at which no node may have a child.
pub(crate) fn last_depth(width: u32) -> u32 {
    width / STEP * STEP
}

/// The first fault in the document's order, or none; the width is 32 or 64.
pub(crate) fn first_fault(width: u32, words: &[u32]) -> Option<Fault> {
    let at_root = |number| Some(Fault { number, node: 0 });
    if words.is_empty() || !words.len().is_multiple_of(NODE_WORDS) {
        return at_root(1);
    }
    let count = words.len() / NODE_WORDS;
    if count > MOST_NODES {
        return at_root(2);
    }
    let mut seen = Seen {
        width,
        count,
        depths: vec![0],
        data_bits: 0,
    };
    for (number, node) in nodes(words).enumerate() {
        if let Some(fault) = seen.node_fault(number, node) {
            let node = number as u64;
            return Some(Fault {
                number: fault,
                node,
            });
        }
        seen.add(number, node);
    }
    None
}

/// What the check knows when it comes to a node.
struct Seen {
    width: u32,
    count: usize,
    /// Depths of node 0 and of all children of earlier nodes, so its length is 1 + their child bits.
    depths: Vec<u32>,
    data_bits: u64,
}

impl Seen {
    /// The first of the faults 3 to 8 at this node.
    fn node_fault(&self, number: usize, node: Node) -> Option<u64> {
        let Some(&depth) = self.depths.get(number) else {
            return Some(3);
        };
        let first_child = u64::from(node.first_child);
        let end = first_child + u64::from(node.child.count_ones());
        if ones(node.data).any(|bit| !may_hold(self.width, depth, bit)) {
            Some(4)
        } else if node.child != 0 && depth >= last_depth(self.width) {
            Some(5)
        } else if first_child != self.depths.len() as u64 {
            Some(6)
        } else if end > self.count as u64 {
            Some(7)
        } else if u64::from(node.first_value) != self.data_bits {
            Some(8)
        } else {
            None
        }
    }

    /// Counts a node without fault.
    fn add(&mut self, number: usize, node: Node) {
        let below = self.depths[number] + STEP;
        self.depths.extend(ones(node.child).map(|_| below));
        self.data_bits += u64::from(node.data.count_ones());
    }
}

/// All entries of a well-formed pool, node by node.
fn entries(words: &[u32]) -> Vec<Entry> {
    let mut places = vec![Prefix::WHOLE; words.len() / NODE_WORDS];
    let mut list = Vec::new();
    for (number, node) in nodes(words).enumerate() {
        let place = places[number];
        for (rank, child) in ones(node.child).enumerate() {
            places[node.first_child as usize + rank] = place.extend(STEP, child);
        }
        for (value, bit) in (node.first_value..).zip(ones(node.data)) {
            let (count, bits) = bits_and_value(bit);
            let prefix = place.extend(count, bits);
            list.push(Entry { prefix, value });
        }
    }
    list
}

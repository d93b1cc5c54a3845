//! A node of one side as the walk sees it: its words, and what of it the root lets through.

use crate::tables::{CHILD_BELOW, DATA_BELOW};

/// A pool and a root.
#[derive(Clone, Copy)]
pub struct Side<'a> {
    pub words: &'a [u32],
    pub key: u64,
    pub len: u32,
}

/// A node's words, and the bits of them that are in the view.
#[derive(Clone, Copy, Default)]
pub struct Node {
    data: u32,
    child: u32,
    first_child: u32,
    first_value: u32,
    /// The data bits in the view.
    pub seen: u32,
    /// The child bits in the view.
    pub below: u32,
}

impl Node {
    /// The value of data bit `bit`.
    #[inline(always)]
    pub fn value(&self, bit: u32) -> u32 {
        self.first_value + (self.data & ((1 << bit) - 1)).count_ones()
    }

    /// The number of the node at child bit `bit`.
    #[inline(always)]
    pub fn child(&self, bit: u32) -> u32 {
        self.first_child + (self.child & ((1 << bit) - 1)).count_ones()
    }
}

impl Side<'_> {
    /// Node `number` at this depth, on the way to the root or below it.
    #[inline(always)]
    pub fn node(&self, number: u32, depth: u32) -> Node {
        let at = 4 * number as usize;
        let words = &self.words[at..at + 4];
        let mut node = Node {
            data: words[0],
            child: words[1],
            first_child: words[2],
            first_value: words[3],
            seen: words[0],
            below: words[1],
        };
        if depth < self.len {
            self.cut(&mut node, depth);
        }
        node
    }

    /// Leaves only what the root leads, in a node above it or at it.
    #[cold]
    fn cut(&self, node: &mut Node, depth: u32) {
        let bits = (self.len - depth).min(5);
        let place = (1 << bits) + ((self.key << depth) >> (64 - bits)) as usize;
        node.seen &= DATA_BELOW[place];
        node.below &= CHILD_BELOW[place];
    }
}

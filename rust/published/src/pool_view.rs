//! The base view: a place in a pool's words.

use crate::node::{child_cover_mask_for_bit, data_bit, data_cover_mask_for_bit, extend_repr};
use crate::numbers::Zero;
use crate::prefix::Prefix;
use crate::table::K;
use crate::trieview::{AsView, TrieView};

/// A view of a well-formed pool; its values are value indices.
pub struct TrieRef<'a, P: Prefix> {
    words: &'a [u32],
    node: usize,
    depth: u32,
    key: P::R,
    prefix_len: u32,
}

impl<P: Prefix> Clone for TrieRef<'_, P> {
    fn clone(&self) -> Self {
        *self
    }
}

impl<P: Prefix> Copy for TrieRef<'_, P> {}

impl<'a, P: Prefix> TrieRef<'a, P> {
    /// The view of the whole pool.
    pub fn whole(words: &'a [u32]) -> Self {
        TrieRef {
            words,
            node: 0,
            depth: 0,
            key: P::R::zero(),
            prefix_len: 0,
        }
    }

    /// A word of the node.
    fn word(&self, place: usize) -> u32 {
        self.words[4 * self.node + place]
    }

    /// The data bit of the root.
    fn root_bit(&self) -> u32 {
        data_bit(self.key, self.prefix_len)
    }
}

/// How many ones stand below a bit.
fn rank(bitmap: u32, bit: u32) -> u32 {
    (bitmap & ((1 << bit) - 1)).count_ones()
}

impl<'a, P: Prefix + 'a> TrieView<'a> for TrieRef<'a, P> {
    type P = P;
    type T = u32;

    fn depth(&self) -> u32 {
        self.depth
    }

    fn key(&self) -> P::R {
        self.key
    }

    fn prefix_len(&self) -> u32 {
        self.prefix_len
    }

    fn data_bitmap(&self) -> u32 {
        self.word(0) & data_cover_mask_for_bit(self.root_bit())
    }

    fn child_bitmap(&self) -> u32 {
        self.word(1) & child_cover_mask_for_bit(self.root_bit())
    }

    unsafe fn get_data(&mut self, data_bit: u32) -> u32 {
        assert!(self.data_bitmap() >> data_bit & 1 == 1);
        self.word(3) + rank(self.word(0), data_bit)
    }

    unsafe fn get_child(&mut self, child_bit: u32) -> Self {
        assert!(self.child_bitmap() >> child_bit & 1 == 1);
        let depth = self.depth + K;
        TrieRef {
            words: self.words,
            node: (self.word(2) + rank(self.word(1), child_bit)) as usize,
            depth,
            key: extend_repr(self.cut(), self.depth, child_bit),
            prefix_len: depth,
        }
    }

    unsafe fn reposition(&mut self, key: P::R, prefix_len: u32) {
        assert!(prefix_len >= self.prefix_len && prefix_len < self.depth + K);
        self.key = key;
        self.prefix_len = prefix_len;
    }
}

impl<P: Prefix> TrieRef<'_, P> {
    /// The key up to the node's depth.
    fn cut(&self) -> P::R {
        self.key & crate::prefix::mask_from_prefix_len(self.depth as u8)
    }
}

impl<'a, P: Prefix + 'a> AsView<'a> for TrieRef<'a, P> {
    type P = P;
    type View = Self;

    fn view(self) -> Self {
        self
    }
}

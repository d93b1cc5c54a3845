//! Set operations on prefix pools, proved: safe functions over slices.
//!
//! A pool is a slice of words, four to a node, as the manual says; a view is a pool and a root. No call needs a checked pool:
//! whatever the words, each call ends with its answer or with a [`Refusal`], and a refused call leaves its buffers as they were.
//!
//! ```
//! use lhamtrovi::{covering_difference, records, Root, View};
//!
//! // 10.0.0.0/8 is believed, 10.0.0.0/9 and 128.0.0.0/1 are forbidden.
//! let believed = [0, 2, 1, 0, 0x200, 0, 2, 0];
//! let forbidden = [4, 2, 1, 0, 0x80000, 0, 2, 1];
//! let mut out = [0; 60];
//! let left = View { pool: &believed, root: Root::WHOLE };
//! let right = View { pool: &forbidden, root: Root::WHOLE };
//! let count = covering_difference(32, left, right, &mut out)?;
//! let first = records(&out[..], count).next().expect("one is left");
//! assert_eq!((first.key >> 32, first.len), (10 << 24, 8));
//! # Ok::<(), lhamtrovi::Refusal>(())
//! ```
#![deny(warnings, missing_docs)]

pub mod plain;
mod records;
mod refusal;

pub use plain::Answer;
pub use records::{records, Cover, Record, Side, RECORD_WORDS};
pub use refusal::{Refusal, Unsound};

/// A root: the first `len` bits of `key`, first bit highest. Bits of `key` past `len` are ignored.
#[derive(Clone, Copy, Debug, PartialEq, Eq)]
pub struct Root {
    /// The bits, first bit highest, also at width 32.
    pub key: u64,
    /// How many of them count.
    pub len: u32,
}

impl Root {
    /// The root of the whole pool, 0/0.
    pub const WHOLE: Root = Root { key: 0, len: 0 };
}

/// A pool, and the root under which its entries count.
#[derive(Clone, Copy, Debug)]
pub struct View<'a> {
    /// Four words to a node, in breadth-first order.
    pub pool: &'a [u32],
    /// Entries that this root leads are in the view.
    pub root: Root,
}

impl<'a> View<'a> {
    fn parts(self) -> (&'a [u32], Root) {
        (self.pool, self.root)
    }
}

/// The number of nodes of a well-formed pool, or why it is not one. The width, here and elsewhere, is 32 or 64.
pub fn check(width: u32, pool: &[u32]) -> Result<usize, Unsound> {
    let answer = plain::check(width, pool);
    match answer.number {
        0 => Ok(answer.beside as usize),
        _ => Err(Unsound::of(answer)),
    }
}

/// The count of a list, or the refusal.
fn count(answer: Answer) -> Result<usize, Refusal> {
    match answer.number {
        0 => Ok(answer.beside as usize),
        _ => Err(Refusal::of(answer)),
    }
}

/// Writes the prefixes of either view to `out`, [`RECORD_WORDS`] words to a record, and answers how many there are.
pub fn union(width: u32, left: View, right: View, out: &mut [u64]) -> Result<usize, Refusal> {
    count(plain::union(width, left.parts(), right.parts(), out))
}

/// Writes the prefixes of both views.
pub fn intersection(
    width: u32,
    left: View,
    right: View,
    out: &mut [u64],
) -> Result<usize, Refusal> {
    count(plain::intersection(width, left.parts(), right.parts(), out))
}

/// Writes the prefixes of the left view that are not in the right one.
pub fn difference(width: u32, left: View, right: View, out: &mut [u64]) -> Result<usize, Refusal> {
    count(plain::difference(width, left.parts(), right.parts(), out))
}

/// Writes the prefixes of the left view that no prefix of the right one equals or leads.
///
/// It removes listed networks: 10.0.0.0/8 on the left stays if only 10.1.0.0/16 is on the right. [`covering_union`] tells of those.
pub fn covering_difference(
    width: u32,
    left: View,
    right: View,
    out: &mut [u64],
) -> Result<usize, Refusal> {
    count(plain::covering_difference(
        width,
        left.parts(),
        right.parts(),
        out,
    ))
}

/// Writes the prefixes of either view; one that is in one view alone comes with the longest prefix of the other that leads it.
pub fn covering_union(
    width: u32,
    left: View,
    right: View,
    out: &mut [u64],
) -> Result<usize, Refusal> {
    count(plain::covering_union(
        width,
        left.parts(),
        right.parts(),
        out,
    ))
}

/// Whether the two views have the same prefixes.
pub fn equal_keys(width: u32, left: View, right: View) -> Result<bool, Refusal> {
    count(plain::equal_keys(width, left.parts(), right.parts())).map(|yes| yes == 1)
}

/// Writes the tidy pool of a view to `out` and, for each of its value indices, the one of the source pool to `values`.
/// Answers the number of nodes, four words each.
pub fn tidy(width: u32, view: View, out: &mut [u32], values: &mut [u32]) -> Result<usize, Refusal> {
    count(plain::tidy(width, view.parts(), out, values))
}

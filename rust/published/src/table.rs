//! The size of a node.

/// Bits between a node and its child.
pub(crate) const K: u32 = 5;
/// Data bits of a node.
pub(crate) const NUM_DATA: usize = 31;

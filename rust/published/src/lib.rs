//! The published set views of prefix-trie 0.10.1 against the proved library.
//!
//! The published files are read where they are, unchanged, when this crate is built; they are not part of it. What they need and what is not
//! published beside them is ours: numbers, prefixes, the masks of a node, and a base view over the words of a pool. So a run speaks for
//! the published set views, and not for the crate's own base view. Where the files are not found, `views` is missing and stored answers
//! take their place.
#![deny(warnings)]

mod answers;
mod cases;
mod run;
pub mod stored;

#[cfg(published)]
mod live;
#[cfg(published)]
mod node;
#[cfg(published)]
mod numbers;
#[cfg(published)]
mod pool_view;
#[cfg(published)]
mod prefix;
#[cfg(published)]
mod shells;
#[cfg(published)]
mod table;

// The published files import num_traits; the few traits they use are ours and lie at this crate's root.
#[cfg(published)]
extern crate self as num_traits;
#[cfg(published)]
pub use numbers::{cast, One, PrimInt, Zero};

#[cfg(published)]
include!(concat!(env!("OUT_DIR"), "/views.rs"));
#[cfg(published)]
pub use prefix::Prefix;
#[cfg(published)]
pub use trieview::{AsView, TrieRef, TrieRefMut, TrieView};

pub use answers::{proved, reference_answers, Answers, LISTS};
pub use cases::{case, sample, small, Case};
pub use run::compare;

#[cfg(published)]
pub use live::{absent, views};

/// Whether the published files were there when this was built.
pub const FOUND: bool = cfg!(published);

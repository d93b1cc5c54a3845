//! The seven answers on prefix pools, the pool check and the text program, by way of sorted lists.
//!
//! Written from the scope document alone. It shares nothing with the proved code.
#![deny(warnings)]
#![forbid(unsafe_code)]

mod calls;
pub mod cases;
mod lists;
mod pool;
mod prefix;
pub mod text;
mod tidy;
pub mod vectors;

pub use calls::{check, equal_keys, list, tidy, Answer};
pub use lists::Operation;
pub use prefix::{Prefix, Root};

//! Random pools, roots and damage from a seed, for comparisons and benchmarks.
#![deny(warnings)]
#![forbid(unsafe_code)]

mod damage;
mod random;
mod roots;
mod shapes;
mod tables;

pub use damage::{damaged, garbage, too_large, FAULTS};
pub use pools::{words, Table};
pub use random::Random;
pub use roots::{long_length, near};
pub use shapes::{chain, crowded, pair, small, Node};
pub use tables::{large, varied};

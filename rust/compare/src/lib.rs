//! The proved library against the reference: the same inputs, and every word of both outcomes.
//!
//! A case is a pair of views with buffer sizes; all calls are made on it. A disagreement is reported with what is needed to see it again.
#![deny(warnings, missing_docs)]
#![forbid(unsafe_code)]

mod altered;
mod case;
mod disagreement;
mod engine;
mod outcome;
pub mod program;
pub mod random_cases;
mod slips;
pub mod small_cases;
mod tally;
pub mod texts;

pub use altered::{alter, alterations, Alteration};
pub use case::{Case, Room, Rooms, View};
pub use disagreement::Disagreement;
pub use engine::{Call, Engine, Input, Lent, Proved, Reference, CALLS};
pub use outcome::{compare, outcome, sizes, Lending, Outcome, Sizes};
pub use slips::{Mutant, Slip, SLIPS};
pub use tally::Tally;

//! The report of two outcomes that are not the same.

use crate::case::Case;
use crate::engine::Call;
use crate::outcome::{Outcome, Sizes, GUARD};
use std::fmt;

/// A case on which two engines left different outcomes: first the proved library's, then the other's.
#[derive(Debug)]
pub struct Disagreement {
    /// The inputs.
    pub case: Case,
    /// The call.
    pub call: Call,
    /// The buffers' sizes.
    pub sizes: Sizes,
    /// Both outcomes.
    pub outcomes: [Outcome; 2],
}

/// A buffer's words in hexadecimal, the guard words parted from them.
fn words<T: fmt::LowerHex>(all: &[T]) -> String {
    let hex: Vec<String> = all.iter().map(|word| format!("{word:x}")).collect();
    let (before, rest) = hex.split_at(GUARD);
    let (lent, after) = rest.split_at(rest.len() - GUARD);
    let parts = [before.join(" "), lent.join(" "), after.join(" ")];
    format!("{} [ {} ] {}", parts[0], parts[1], parts[2])
}

impl fmt::Display for Disagreement {
    fn fmt(&self, f: &mut fmt::Formatter) -> fmt::Result {
        write!(f, "{}", self.case)?;
        writeln!(f, "call: {:?}", self.call)?;
        let Sizes {
            records,
            nodes,
            values,
        } = self.sizes;
        writeln!(
            f,
            "lent words: {records} for records, {nodes} for nodes, {values} for values"
        )?;
        for (name, outcome) in ["one outcome", "the other"].iter().zip(&self.outcomes) {
            let answer = outcome.answer;
            writeln!(
                f,
                "{name}: number {}, beside {}, second {}",
                answer.number, answer.beside, answer.second
            )?;
            writeln!(f, "  records: {}", words(&outcome.records))?;
            writeln!(f, "  nodes: {}", words(&outcome.nodes))?;
            writeln!(f, "  values: {}", words(&outcome.values))?;
            writeln!(f, "  inputs kept: {}", outcome.inputs_kept)?;
        }
        Ok(())
    }
}

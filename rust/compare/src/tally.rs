//! What came up in a comparison, so that a run that met only easy cases is not taken for more.

use crate::engine::{Call, CALLS};
use lhamtrovi::Answer;
use std::collections::BTreeMap;
use std::fmt;

/// How often each kind of case, each answer of each call and each fault came up.
#[derive(Default)]
pub struct Tally {
    families: BTreeMap<&'static str, u64>,
    /// Calls with the same refusals are counted together.
    answers: BTreeMap<&'static str, BTreeMap<u32, u64>>,
    faults: BTreeMap<u64, u64>,
    texts: BTreeMap<String, u64>,
}

/// The calls that have the same refusals.
fn kind(call: Call) -> &'static str {
    match call {
        Call::CheckLeft | Call::CheckRight => "check",
        Call::List(_) => "lists",
        Call::EqualKeys => "equality",
        Call::Tidy => "tidy",
    }
}

/// The numbers that calls of each kind can answer.
const NUMBERS: [(&str, &[u32]); 4] = [
    ("check", &[0, 1, 2]),
    ("lists", &[0, 1, 2, 3, 4, 5, 6]),
    ("equality", &[0, 1, 2, 3, 4, 5]),
    ("tidy", &[0, 1, 2, 4, 6, 7]),
];

impl Tally {
    /// Counts a case on which both sides agreed.
    pub fn add(&mut self, family: &'static str, answers: &[Answer]) {
        *self.families.entry(family).or_default() += 1;
        for (call, answer) in CALLS.iter().zip(answers) {
            let of_kind = self.answers.entry(kind(*call)).or_default();
            *of_kind.entry(answer.number).or_default() += 1;
            if answer.second != 0 {
                *self.faults.entry(answer.second).or_default() += 1;
            }
        }
    }

    /// Counts an answer of the text program by the number in its last line.
    pub fn add_text(&mut self, said: &[u8]) {
        let said = String::from_utf8_lossy(said);
        let last = said.lines().last().unwrap_or("");
        let number = last.split('\t').take(2).collect::<Vec<_>>().join(" ");
        *self.texts.entry(number).or_default() += 1;
    }

    /// The first answer or fault that never came up.
    pub fn missing(&self) -> Option<String> {
        for (kind, numbers) in NUMBERS {
            for number in numbers {
                if !self
                    .answers
                    .get(kind)
                    .is_some_and(|n| n.contains_key(number))
                {
                    return Some(format!("answer {number} of {kind}"));
                }
            }
        }
        let fault = (1..=8).find(|fault| !self.faults.contains_key(fault));
        fault.map(|fault| format!("fault {fault}"))
    }
}

impl fmt::Display for Tally {
    fn fmt(&self, f: &mut fmt::Formatter) -> fmt::Result {
        writeln!(f, "cases: {:?}", self.families)?;
        for (kind, numbers) in &self.answers {
            writeln!(f, "answers of {kind} by number: {numbers:?}")?;
        }
        writeln!(f, "faults by number: {:?}", self.faults)?;
        write!(f, "last lines of the text program: {:?}", self.texts)
    }
}

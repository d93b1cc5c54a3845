//! One word of an outcome changed, to see that no word is left out of the comparison.

use crate::engine::Call;
use crate::outcome::{Outcome, GUARD};
use std::ops::BitXorAssign;

/// Which word is changed.
#[derive(Clone, Copy, Debug, PartialEq, Eq)]
pub enum Alteration {
    /// The number.
    Number,
    /// The number beside it.
    Beside,
    /// The second number.
    Second,
    /// A word of the first record.
    FirstRecord(usize),
    /// A word of the last record.
    LastRecord(usize),
    /// The lent word after the last record.
    AfterRecords,
    /// The word before the records' buffer.
    BeforeRecords,
    /// The word past the records' buffer.
    PastRecords,
    /// A word of the last node.
    LastNode(usize),
    /// The lent word after the last node.
    AfterNodes,
    /// The word before the nodes' buffer.
    BeforeNodes,
    /// The word past the nodes' buffer.
    PastNodes,
    /// The first word of the value list.
    FirstValue,
    /// The last lent word of the value list.
    LastValue,
    /// The word before the value list.
    BeforeValues,
    /// The word past the value list.
    PastValues,
    /// A word of a pool.
    Inputs,
}

/// Every kind of word.
pub fn alterations() -> Vec<Alteration> {
    use Alteration::*;
    let mut list = vec![Number, Beside, Second, AfterRecords, BeforeRecords];
    list.extend([PastRecords, AfterNodes, BeforeNodes, PastNodes, FirstValue]);
    list.extend([LastValue, BeforeValues, PastValues, Inputs]);
    list.extend((0..6).map(FirstRecord));
    list.extend((0..6).map(LastRecord));
    list.extend((0..4).map(LastNode));
    list
}

/// Turns the lowest bit of the word at this place of the lent part; false if the part is shorter.
fn turn_lent<T: BitXorAssign + From<u8>>(words: &mut [T], place: usize) -> bool {
    let end = words.len() - GUARD;
    match words[GUARD..end].get_mut(place) {
        Some(word) => {
            *word ^= T::from(1);
            true
        }
        None => false,
    }
}

/// Turns the lowest bit of the word next to the lent part, before it or past it.
fn turn_guard<T: BitXorAssign + From<u8>>(words: &mut [T], past: bool) -> bool {
    let place = match past {
        true => words.len() - GUARD,
        false => GUARD - 1,
    };
    words[place] ^= T::from(1);
    true
}

/// Changes one word of an outcome; false if it has no such word.
pub fn alter(call: Call, outcome: &mut Outcome, kind: Alteration) -> bool {
    let written = match outcome.answer.number {
        0 => outcome.answer.beside as usize,
        _ => 0,
    };
    match (kind, call) {
        (Alteration::Number, _) => {
            outcome.answer.number ^= 1;
            true
        }
        (Alteration::Beside, _) => {
            outcome.answer.beside ^= 1;
            true
        }
        (Alteration::Second, _) => {
            outcome.answer.second ^= 1;
            true
        }
        (Alteration::Inputs, _) => {
            outcome.inputs_kept = false;
            true
        }
        (_, Call::List(_)) => alter_records(&mut outcome.records, written, kind),
        (_, Call::Tidy) => alter_tidy(outcome, written, kind),
        _ => false,
    }
}

/// Changes a word in or around the records.
fn alter_records(records: &mut [u64], written: usize, kind: Alteration) -> bool {
    match kind {
        Alteration::FirstRecord(word) => written > 0 && turn_lent(records, word),
        Alteration::LastRecord(word) => written > 0 && turn_lent(records, 6 * written - 6 + word),
        Alteration::AfterRecords => turn_lent(records, 6 * written),
        Alteration::BeforeRecords => turn_guard(records, false),
        Alteration::PastRecords => turn_guard(records, true),
        _ => false,
    }
}

/// Changes a word in or around a tidy pool or its list.
fn alter_tidy(outcome: &mut Outcome, written: usize, kind: Alteration) -> bool {
    let nodes = &mut outcome.nodes;
    let values = &mut outcome.values;
    let last = values.len() - 2 * GUARD;
    match kind {
        Alteration::LastNode(word) => written > 0 && turn_lent(nodes, 4 * written - 4 + word),
        Alteration::AfterNodes => turn_lent(nodes, 4 * written),
        Alteration::BeforeNodes => turn_guard(nodes, false),
        Alteration::PastNodes => turn_guard(nodes, true),
        Alteration::FirstValue => turn_lent(values, 0),
        Alteration::LastValue => last > 0 && turn_lent(values, last - 1),
        Alteration::BeforeValues => turn_guard(values, false),
        Alteration::PastValues => turn_guard(values, true),
        _ => false,
    }
}

//! What a call leaves behind, word for word, with guard words around everything that is lent.

use crate::case::Case;
use crate::disagreement::Disagreement;
use crate::engine::{cut, Call, Engine, Input, Lent, CALLS};
use lhamtrovi::Answer;
use std::hint::black_box;

/// Guard words on either side of every lent slice.
pub(crate) const GUARD: usize = 9;
/// The words around lent pools: were one read as a node, it would have all bits.
const AROUND: u32 = u32::MAX;

/// The sizes of the buffers in words.
#[derive(Clone, Copy, Debug, Default, PartialEq, Eq)]
pub struct Sizes {
    /// Words for records.
    pub records: usize,
    /// Words for nodes.
    pub nodes: usize,
    /// Words for the value list.
    pub values: usize,
}

/// The answer, and the memory after the call: the buffers with the guard words around them.
#[derive(Clone, Debug, PartialEq, Eq)]
pub struct Outcome {
    /// The three numbers.
    pub answer: Answer,
    /// Guard words, the records' buffer, guard words.
    pub records: Vec<u64>,
    /// Guard words, the nodes' buffer, guard words.
    pub nodes: Vec<u32>,
    /// Guard words, the value list, guard words.
    pub values: Vec<u32>,
    /// The pools and the words around them are as they were.
    pub inputs_kept: bool,
}

/// The pools of a case in the middle of larger memory.
pub struct Lending<'a> {
    case: &'a Case,
    left: Vec<u32>,
    right: Vec<u32>,
}

/// The words with guard words around them.
fn padded(words: &[u32]) -> Vec<u32> {
    let mut all = vec![AROUND; GUARD];
    all.extend(words);
    all.extend([AROUND; GUARD]);
    all
}

/// Whether padded words are still what they were made of.
fn is_kept(all: &[u32], words: &[u32]) -> bool {
    let (before, rest) = all.split_at(GUARD);
    let (middle, after) = rest.split_at(words.len());
    let guards = before.iter().chain(after);
    guards.copied().all(|word| word == AROUND) && middle == words
}

/// Distinct words that no call would write, with guard words at both ends.
fn marks_u64(words: usize) -> Vec<u64> {
    (0xa5a5_c3c3_0000_0001..).take(words + 2 * GUARD).collect()
}

/// The same for buffers of shorter words.
fn marks_u32(words: usize) -> Vec<u32> {
    (0xa5c3_0001..).take(words + 2 * GUARD).collect()
}

/// The part that is lent.
fn middle<T>(all: &mut [T]) -> &mut [T] {
    let end = all.len() - GUARD;
    &mut all[GUARD..end]
}

impl<'a> Lending<'a> {
    /// The memory of a case's pools.
    pub fn new(case: &'a Case) -> Lending<'a> {
        Lending {
            case,
            left: padded(&case.left.words),
            right: padded(&case.right.words),
        }
    }

    /// What the calls get.
    fn input(&self) -> Input<'_> {
        let (left, right) = (&self.case.left, &self.case.right);
        let left_words = &self.left[GUARD..GUARD + left.words.len()];
        let right_words = match self.case.shared {
            true => left_words,
            false => &self.right[GUARD..GUARD + right.words.len()],
        };
        Input {
            width: self.case.width,
            left: (left_words, left.root),
            right: (right_words, right.root),
        }
    }

    /// Whether no word of a pool or around it has changed; it is read anew.
    fn is_kept(&self) -> bool {
        let left = is_kept(black_box(&self.left), &self.case.left.words);
        left && is_kept(black_box(&self.right), &self.case.right.words)
    }
}

/// Makes a call and keeps all that it left.
pub fn outcome(engine: &dyn Engine, call: Call, lending: &Lending, sizes: Sizes) -> Outcome {
    let mut records = marks_u64(sizes.records);
    let mut nodes = marks_u32(sizes.nodes);
    let mut values = marks_u32(sizes.values);
    let lent = Lent {
        records: middle(&mut records),
        nodes: middle(&mut nodes),
        values: middle(&mut values),
    };
    let answer = engine.answer(call, &lending.input(), lent);
    Outcome {
        answer,
        records,
        nodes,
        values,
        inputs_kept: lending.is_kept(),
    }
}

/// The sizes of a call's buffers in this case, by what the reference says is needed.
pub fn sizes(call: Call, case: &Case) -> Sizes {
    let rooms = case.rooms;
    match call {
        Call::CheckLeft | Call::CheckRight | Call::EqualKeys => Sizes::default(),
        Call::List(_) => Sizes {
            records: rooms.records.words(needed_records(call, case) * 6),
            ..Sizes::default()
        },
        Call::Tidy => {
            let (nodes, values) = needed_for_tidy(case);
            Sizes {
                nodes: rooms.nodes.words(nodes * 4),
                values: rooms.values.words(values),
                ..Sizes::default()
            }
        }
    }
}

/// The records of a list, or 0 if it is refused for another reason than room.
fn needed_records(call: Call, case: &Case) -> usize {
    let Call::List(operation) = call else {
        return 0;
    };
    let (left, right) = (&case.left, &case.right);
    let (left_root, right_root) = (cut(left.root), cut(right.root));
    let words = case.right_words();
    let answer = reference::list(
        operation,
        case.width,
        &left.words,
        left_root,
        words,
        right_root,
        &mut [],
    );
    needed(answer, 6)
}

/// The number beside this refusal, or 0.
fn needed(answer: reference::Answer, refusal: u32) -> usize {
    match answer.number == refusal {
        true => answer.beside as usize,
        false => 0,
    }
}

/// The nodes and entries of the tidy pool of the left view, or 0.
fn needed_for_tidy(case: &Case) -> (usize, usize) {
    let (words, root) = (&case.left.words, cut(case.left.root));
    let mut large = vec![0; words.len()];
    let nodes = reference::tidy(case.width, words, root, &mut [], &mut []);
    let values = reference::tidy(case.width, words, root, &mut large, &mut []);
    (needed(nodes, 6), needed(values, 7))
}

/// Makes all calls on a case with both engines; the first pair of outcomes that are not the same is an error, else the answers are told.
pub fn compare(
    case: &Case,
    one: &dyn Engine,
    other: &dyn Engine,
) -> Result<Vec<Answer>, Box<Disagreement>> {
    // Each engine has its own copy of the pools, so that one that changes them cannot mislead the other.
    let sides = [one, other].map(|engine| (engine, Lending::new(case)));
    let mut answers = Vec::with_capacity(CALLS.len());
    for call in CALLS {
        let sizes = sizes(call, case);
        let outcomes = sides
            .each_ref()
            .map(|(engine, lending)| outcome(*engine, call, lending, sizes));
        if outcomes[0] != outcomes[1] {
            let case = case.clone();
            return Err(Box::new(Disagreement {
                case,
                call,
                sizes,
                outcomes,
            }));
        }
        answers.push(outcomes[0].answer);
    }
    Ok(answers)
}

#[cfg(test)]
mod tests {
    use super::*;
    use crate::random_cases;

    #[test]
    fn a_change_in_or_around_a_pool_is_seen() {
        let case = random_cases::case(1, 5);
        let mut lending = Lending::new(&case);
        assert!(lending.is_kept());
        for place in 0..lending.left.len() {
            lending.left[place] ^= 1;
            assert!(!lending.is_kept(), "word {place}");
            lending.left[place] ^= 1;
        }
        for place in 0..lending.right.len() {
            lending.right[place] ^= 1;
            assert!(!lending.is_kept(), "word {place}");
            lending.right[place] ^= 1;
        }
        assert!(lending.is_kept());
    }
}

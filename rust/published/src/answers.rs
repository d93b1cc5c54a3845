//! The five lists and key equality of a case, by the proved library and by the reference.

use crate::cases::Case;
use lhamtrovi::{plain, Answer, Root};
use reference::Operation;

/// The lists, in the order in which answers hold them.
pub const LISTS: [&str; 5] = [
    "union",
    "intersection",
    "difference",
    "covering difference",
    "covering union",
];

/// A record's six words.
pub type Record = [u64; 6];

/// All answers to a case.
#[derive(Clone, Debug, PartialEq, Eq)]
pub struct Answers {
    /// The records of each list.
    pub lists: [Vec<Record>; 5],
    /// Key equality.
    pub equal: bool,
}

/// The records of a call that must not be refused.
fn records(answer: Answer, out: &[u64]) -> Vec<Record> {
    assert_eq!(answer.number, 0, "a well-formed case is refused");
    let records = out.chunks_exact(6).take(answer.beside as usize);
    records
        .map(|words| words.try_into().expect("six words"))
        .collect()
}

/// Room for every entry of both pools.
fn room(case: &Case) -> Vec<u64> {
    let data = case
        .left
        .iter()
        .step_by(4)
        .chain(case.right.iter().step_by(4));
    let entries: u32 = data.map(|word| word.count_ones()).sum();
    vec![0; 6 * entries as usize]
}

/// The proved library's answers.
pub fn proved(case: &Case) -> Answers {
    let root = |(key, len): (u64, u32)| Root { key, len };
    let left = (&case.left[..], root(case.left_root));
    let right = (&case.right[..], root(case.right_root));
    let calls = [
        plain::union,
        plain::intersection,
        plain::difference,
        plain::covering_difference,
        plain::covering_union,
    ];
    let mut out = room(case);
    let lists = calls.map(|call| {
        let answer = call(case.width, left, right, &mut out);
        records(answer, &out)
    });
    let answer = plain::equal_keys(case.width, left, right);
    assert_eq!(answer.number, 0, "a well-formed case is refused");
    Answers {
        lists,
        equal: answer.beside == 1,
    }
}

/// The reference's answers.
pub fn reference_answers(case: &Case) -> Answers {
    let root = |(key, len): (u64, u32)| reference::Root { key, len };
    let (left_root, right_root) = (root(case.left_root), root(case.right_root));
    let (left, right) = (&case.left, &case.right);
    let operations = [
        Operation::Union,
        Operation::Intersection,
        Operation::Difference,
        Operation::CoveringDifference,
        Operation::CoveringUnion,
    ];
    let mut out = room(case);
    let width = case.width;
    let lists = operations.map(|operation| {
        let answer = reference::list(
            operation, width, left, left_root, right, right_root, &mut out,
        );
        let (number, beside, second) = (answer.number, answer.beside, answer.second);
        records(
            Answer {
                number,
                beside,
                second,
            },
            &out,
        )
    });
    let answer = reference::equal_keys(width, left, left_root, right, right_root);
    Answers {
        lists,
        equal: answer.beside == 1,
    }
}

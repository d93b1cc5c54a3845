//! The calls, as made by the proved library and by the reference.

use lhamtrovi::{plain, Answer, Root};
use reference::Operation;

/// A call of the library.
#[derive(Clone, Copy, Debug, PartialEq, Eq)]
pub enum Call {
    /// The check of the left pool.
    CheckLeft,
    /// The check of the right pool.
    CheckRight,
    /// One of the five lists.
    List(Operation),
    /// Key equality.
    EqualKeys,
    /// Tidying of the left view.
    Tidy,
}

/// All calls that are made on a case.
pub const CALLS: [Call; 9] = [
    Call::CheckLeft,
    Call::CheckRight,
    Call::List(Operation::Union),
    Call::List(Operation::Intersection),
    Call::List(Operation::Difference),
    Call::List(Operation::CoveringDifference),
    Call::List(Operation::CoveringUnion),
    Call::EqualKeys,
    Call::Tidy,
];

/// What a call reads.
#[derive(Clone, Copy)]
pub struct Input<'a> {
    /// Any width.
    pub width: u32,
    /// The left pool and root.
    pub left: (&'a [u32], Root),
    /// The right pool and root.
    pub right: (&'a [u32], Root),
}

/// What a call may write to.
pub struct Lent<'a> {
    /// Records of a list.
    pub records: &'a mut [u64],
    /// Nodes of a tidy pool.
    pub nodes: &'a mut [u32],
    /// The value list of a tidy pool.
    pub values: &'a mut [u32],
}

/// Something that answers the calls.
pub trait Engine {
    /// The call's answer; the buffers hold what it wrote.
    fn answer(&self, call: Call, input: &Input, lent: Lent) -> Answer;
}

/// The proved library.
pub struct Proved;

impl Engine for Proved {
    fn answer(&self, call: Call, input: &Input, lent: Lent) -> Answer {
        let Input { width, left, right } = *input;
        let out = lent.records;
        match call {
            Call::CheckLeft => plain::check(width, left.0),
            Call::CheckRight => plain::check(width, right.0),
            Call::List(Operation::Union) => plain::union(width, left, right, out),
            Call::List(Operation::Intersection) => plain::intersection(width, left, right, out),
            Call::List(Operation::Difference) => plain::difference(width, left, right, out),
            Call::List(Operation::CoveringDifference) => {
                plain::covering_difference(width, left, right, out)
            }
            Call::List(Operation::CoveringUnion) => plain::covering_union(width, left, right, out),
            Call::EqualKeys => plain::equal_keys(width, left, right),
            Call::Tidy => plain::tidy(width, left, lent.nodes, lent.values),
        }
    }
}

/// The implementation by sorted lists.
pub struct Reference;

/// A root in the reference's type.
pub(crate) fn cut(root: Root) -> reference::Root {
    reference::Root {
        key: root.key,
        len: root.len,
    }
}

impl Engine for Reference {
    fn answer(&self, call: Call, input: &Input, lent: Lent) -> Answer {
        let width = input.width;
        let (left, left_root) = (input.left.0, cut(input.left.1));
        let (right, right_root) = (input.right.0, cut(input.right.1));
        let answer = match call {
            Call::CheckLeft => reference::check(width, left),
            Call::CheckRight => reference::check(width, right),
            Call::List(operation) => {
                let out = lent.records;
                reference::list(operation, width, left, left_root, right, right_root, out)
            }
            Call::EqualKeys => reference::equal_keys(width, left, left_root, right, right_root),
            Call::Tidy => reference::tidy(width, left, left_root, lent.nodes, lent.values),
        };
        Answer {
            number: answer.number,
            beside: answer.beside,
            second: answer.second,
        }
    }
}

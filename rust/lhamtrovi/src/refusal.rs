//! Refusals as types.

use crate::plain::Answer;
use std::fmt;

/// Why a call was refused. Its buffers are as they were.
#[derive(Clone, Copy, Debug, PartialEq, Eq)]
pub enum Refusal {
    /// 1: the width is not 32 or 64.
    Width,
    /// 2: the left pool, or the only one, has its first fault at this node.
    LeftPool {
        /// The node.
        node: u64,
    },
    /// 3: the right pool has its first fault at this node.
    RightPool {
        /// The node.
        node: u64,
    },
    /// 4: the left root, or the only one, is longer than the width.
    LeftRoot,
    /// 5: the right root is longer than the width.
    RightRoot,
    /// 6: the output holds fewer records, or in tidying fewer nodes, than are needed.
    Room {
        /// How many are needed.
        needed: u64,
    },
    /// 7: the value list is shorter than needed.
    ValueRoom {
        /// How many are needed.
        needed: u64,
    },
}

impl Refusal {
    /// The refusal of an answer whose number is not 0.
    pub(crate) fn of(answer: Answer) -> Refusal {
        match answer.number {
            1 => Refusal::Width,
            2 => Refusal::LeftPool {
                node: answer.beside,
            },
            3 => Refusal::RightPool {
                node: answer.beside,
            },
            4 => Refusal::LeftRoot,
            5 => Refusal::RightRoot,
            6 => Refusal::Room {
                needed: answer.beside,
            },
            7 => Refusal::ValueRoom {
                needed: answer.beside,
            },
            number => unreachable!("the proved calls have no refusal {number}"),
        }
    }

    /// The refusal's number in the manual.
    pub fn number(self) -> u32 {
        match self {
            Refusal::Width => 1,
            Refusal::LeftPool { .. } => 2,
            Refusal::RightPool { .. } => 3,
            Refusal::LeftRoot => 4,
            Refusal::RightRoot => 5,
            Refusal::Room { .. } => 6,
            Refusal::ValueRoom { .. } => 7,
        }
    }
}

impl fmt::Display for Refusal {
    fn fmt(&self, f: &mut fmt::Formatter) -> fmt::Result {
        match self {
            Refusal::Width => write!(f, "the width is not 32 or 64"),
            Refusal::LeftPool { node } => write!(f, "the left pool has a fault at node {node}"),
            Refusal::RightPool { node } => write!(f, "the right pool has a fault at node {node}"),
            Refusal::LeftRoot => write!(f, "the left root is longer than the width"),
            Refusal::RightRoot => write!(f, "the right root is longer than the width"),
            Refusal::Room { needed } => write!(f, "the output is too small: {needed} are needed"),
            Refusal::ValueRoom { needed } => {
                write!(f, "the value list is too short: {needed} are needed")
            }
        }
    }
}

impl std::error::Error for Refusal {}

/// Why a check did not find a well-formed pool.
#[derive(Clone, Copy, Debug, PartialEq, Eq)]
pub enum Unsound {
    /// The width is not 32 or 64, so nothing was looked at.
    Width,
    /// The pool has a fault.
    Fault {
        /// The number of the first fault in the manual, 1 to 8.
        number: u64,
        /// The node at which it was found.
        node: u64,
    },
}

impl Unsound {
    /// The reason of a check's answer whose number is not 0.
    pub(crate) fn of(answer: Answer) -> Unsound {
        match answer.number {
            1 => Unsound::Width,
            _ => Unsound::Fault {
                number: answer.second,
                node: answer.beside,
            },
        }
    }
}

impl fmt::Display for Unsound {
    fn fmt(&self, f: &mut fmt::Formatter) -> fmt::Result {
        match self {
            Unsound::Width => write!(f, "the width is not 32 or 64"),
            Unsound::Fault { number, node } => write!(f, "fault {number} at node {node}"),
        }
    }
}

impl std::error::Error for Unsound {}

//! The five lists and key equality: one walk down both sides at once, in prefix order.

use crate::node::{Node, Side};
use crate::tables::{bits_of, ABOVE, ORDER, PLACE};

const UNION: u8 = 0;
const INTERSECTION: u8 = 1;
const DIFFERENCE: u8 = 2;
const COVERING_DIFFERENCE: u8 = 3;
const COVERING_UNION: u8 = 4;

const MISSING: u64 = u32::MAX as u64;
const NO_COVER: u64 = 255;

/// The nearest entry above on one side: its length and value, or the marks.
#[derive(Clone, Copy)]
struct Above {
    len: u64,
    value: u64,
}

const NONE: Above = Above {
    len: NO_COVER,
    value: MISSING,
};

/// A walk that writes records.
struct Walk<'a, 'b, const LIST: u8> {
    left: Side<'a>,
    right: Side<'a>,
    out: &'b mut [u64],
    at: usize,
}

/// The places of some data and child bits as bits in prefix order.
#[inline(always)]
fn places(data: u32, child: u32) -> u64 {
    let mut todo = 0;
    let mut rest = data;
    while rest != 0 {
        todo |= 1 << ORDER[rest.trailing_zeros() as usize + 1];
        rest &= rest - 1;
    }
    rest = child;
    while rest != 0 {
        todo |= 1 << ORDER[rest.trailing_zeros() as usize + 32];
        rest &= rest - 1;
    }
    todo
}

/// The nearest of a node's entries at or above a place, or else what came from above.
#[inline(always)]
fn nearest(node: &Node, place: usize, depth: u32, above: Above) -> Above {
    let hits = node.seen & ABOVE[place];
    if hits == 0 {
        return above;
    }
    let bit = 31 - hits.leading_zeros();
    Above {
        len: (depth + bits_of(bit as usize + 1)) as u64,
        value: node.value(bit) as u64,
    }
}

impl<const LIST: u8> Walk<'_, '_, LIST> {
    #[inline(always)]
    fn put(&mut self, record: [u64; 6]) {
        self.out[self.at..self.at + 6].copy_from_slice(&record);
        self.at += 6;
    }

    /// The record of a data bit that is seen on at least one side.
    #[inline(always)]
    fn entry(
        &mut self,
        key: u64,
        depth: u32,
        place: usize,
        l: &Node,
        r: &Node,
        above: (Above, Above),
    ) {
        let bit = place as u32 - 1;
        let bits = bits_of(place);
        let len = (depth + bits) as u64;
        let low = (place as u64 - (1 << bits)) << (63 - bits) << 1;
        let key = key | low >> depth;
        let in_left = l.seen >> bit & 1 != 0;
        let in_right = r.seen >> bit & 1 != 0;
        let record = if LIST == DIFFERENCE || LIST == COVERING_DIFFERENCE || !in_right {
            let cover = if LIST == COVERING_UNION {
                nearest(r, place, depth, above.1)
            } else {
                NONE
            };
            [key, len, 1, l.value(bit) as u64, cover.value, cover.len]
        } else if !in_left {
            let cover = if LIST == COVERING_UNION {
                nearest(l, place, depth, above.0)
            } else {
                NONE
            };
            [key, len, 2, cover.value, r.value(bit) as u64, cover.len]
        } else {
            [
                key,
                len,
                3,
                l.value(bit) as u64,
                r.value(bit) as u64,
                NO_COVER,
            ]
        };
        self.put(record);
    }

    /// Everything below a pair of nodes, of which at least one is there.
    fn pair(
        &mut self,
        left: Option<u32>,
        right: Option<u32>,
        key: u64,
        depth: u32,
        above: (Above, Above),
    ) {
        let l = left.map_or(Node::default(), |n| self.left.node(n, depth));
        let r = right.map_or(Node::default(), |n| self.right.node(n, depth));
        let mut todo = match LIST {
            UNION | COVERING_UNION => places(l.seen | r.seen, l.below | r.below),
            INTERSECTION => places(l.seen & r.seen, l.below & r.below),
            DIFFERENCE => places(l.seen & !r.seen, l.below),
            _ => places(l.seen, l.below),
        };
        while todo != 0 {
            let place = PLACE[todo.trailing_zeros() as usize] as usize;
            todo &= todo - 1;
            if LIST == COVERING_DIFFERENCE && r.seen & ABOVE[place] != 0 {
                continue;
            }
            if place < 32 {
                self.entry(key, depth, place, &l, &r, above);
            } else {
                let bit = place as u32 - 32;
                let next_left = (l.below >> bit & 1 != 0).then(|| l.child(bit));
                let next_right = (r.below >> bit & 1 != 0).then(|| r.child(bit));
                let next_above = if LIST == COVERING_UNION {
                    (
                        nearest(&l, place, depth, above.0),
                        nearest(&r, place, depth, above.1),
                    )
                } else {
                    above
                };
                let next_key = key | (bit as u64) << 59 >> depth;
                self.pair(next_left, next_right, next_key, depth + 5, next_above);
            }
        }
    }
}

/// The number of records written.
fn list<const LIST: u8>(left: Side, right: Side, out: &mut [u64]) -> usize {
    let mut walk = Walk::<LIST> {
        left,
        right,
        out,
        at: 0,
    };
    walk.pair(Some(0), Some(0), 0, 0, (NONE, NONE));
    walk.at / 6
}

/// The prefixes of either view.
pub fn union(left: Side, right: Side, out: &mut [u64]) -> usize {
    list::<UNION>(left, right, out)
}

/// The prefixes of both views.
pub fn intersection(left: Side, right: Side, out: &mut [u64]) -> usize {
    list::<INTERSECTION>(left, right, out)
}

/// The prefixes of the left view that are not in the right one.
pub fn difference(left: Side, right: Side, out: &mut [u64]) -> usize {
    list::<DIFFERENCE>(left, right, out)
}

/// The prefixes of the left view that no prefix of the right one equals or leads.
pub fn covering_difference(left: Side, right: Side, out: &mut [u64]) -> usize {
    list::<COVERING_DIFFERENCE>(left, right, out)
}

/// The prefixes of either view with their covers.
pub fn covering_union(left: Side, right: Side, out: &mut [u64]) -> usize {
    list::<COVERING_UNION>(left, right, out)
}

/// Nothing of a node or below it is in the view.
fn is_empty(side: &Side, number: u32, depth: u32) -> bool {
    let node = side.node(number, depth);
    let mut rest = node.below;
    if node.seen != 0 {
        return false;
    }
    while rest != 0 {
        if !is_empty(side, node.child(rest.trailing_zeros()), depth + 5) {
            return false;
        }
        rest &= rest - 1;
    }
    true
}

/// The two nodes and what is below them have the same prefixes in their views.
fn equal_pair(left: &Side, right: &Side, l: u32, r: u32, depth: u32) -> bool {
    let (l, r) = (left.node(l, depth), right.node(r, depth));
    if l.seen != r.seen {
        return false;
    }
    let mut rest = l.below | r.below;
    while rest != 0 {
        let bit = rest.trailing_zeros();
        let same = match (l.below >> bit & 1 != 0, r.below >> bit & 1 != 0) {
            (true, true) => equal_pair(left, right, l.child(bit), r.child(bit), depth + 5),
            (true, false) => is_empty(left, l.child(bit), depth + 5),
            _ => is_empty(right, r.child(bit), depth + 5),
        };
        if !same {
            return false;
        }
        rest &= rest - 1;
    }
    true
}

/// Whether the two views have the same prefixes.
pub fn equal_keys(left: Side, right: Side) -> bool {
    equal_pair(&left, &right, 0, 0, 0)
}

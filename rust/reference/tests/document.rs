//! The document's worked cases, with words written out by hand.
#![deny(warnings)]
#![forbid(unsafe_code)]

use reference::Operation::{CoveringDifference, CoveringUnion, Difference, Intersection, Union};
use reference::{check, equal_keys, list, tidy, Answer, Operation, Root};

const A: [u32; 8] = [1, 2, 1, 0, 0x100200, 0, 2, 1];
const B: [u32; 8] = [4, 2, 1, 0, 0x180000, 0, 2, 1];
const WHOLE: Root = Root { key: 0, len: 0 };
/// The keys of 10.0.0.0, 10.128.0.0 and 128.0.0.0.
const TEN: u64 = 0x0a00_0000_0000_0000;
const TEN_HIGH: u64 = 0x0a80_0000_0000_0000;
const HALF: u64 = 0x8000_0000_0000_0000;
/// A missing value and a missing cover length.
const NO: u64 = 4294967295;
const NC: u64 = 255;
const MARK: u64 = 0xdead_beef_0000_0000;

type Record = [u64; 6];

fn at(key: u64, len: u32) -> Root {
    Root { key, len }
}

fn plain(number: u32, beside: u64) -> Answer {
    let second = 0;
    Answer {
        number,
        beside,
        second,
    }
}

/// The list has exactly these records, in a longer buffer, in an exact one, and not in a shorter one.
fn gives(operation: Operation, left: (&[u32], Root), right: (&[u32], Root), records: &[Record]) {
    let exact = records.len() * 6;
    for spare in [0, 1, 5, 6, 19] {
        let mut out = vec![MARK; exact + spare];
        let answer = list(operation, 32, left.0, left.1, right.0, right.1, &mut out);
        assert_eq!(answer, plain(0, records.len() as u64));
        assert_eq!(out[..exact], records.concat());
        assert_eq!(out[exact..], vec![MARK; spare]);
    }
    for words in 0..exact {
        let mut out = vec![MARK; words];
        let answer = list(operation, 32, left.0, left.1, right.0, right.1, &mut out);
        assert_eq!(answer, plain(6, records.len() as u64));
        assert_eq!(out, vec![MARK; words]);
    }
}

#[test]
fn union_of_a_and_b() {
    let records = [
        [0, 0, 1, 0, NO, NC],
        [TEN, 8, 1, 1, NO, NC],
        [TEN, 9, 2, NO, 1, NC],
        [TEN_HIGH, 9, 3, 2, 2, NC],
        [HALF, 1, 2, NO, 0, NC],
    ];
    gives(Union, (&A, WHOLE), (&B, WHOLE), &records);
}

#[test]
fn intersection_and_differences() {
    let shared = [[TEN_HIGH, 9, 3, 2, 2, NC]];
    gives(Intersection, (&A, WHOLE), (&B, WHOLE), &shared);
    let only_a = [[0, 0, 1, 0, NO, NC], [TEN, 8, 1, 1, NO, NC]];
    gives(Difference, (&A, WHOLE), (&B, WHOLE), &only_a);
    let only_b = [[TEN, 9, 1, 1, NO, NC], [HALF, 1, 1, 0, NO, NC]];
    gives(Difference, (&B, WHOLE), (&A, WHOLE), &only_b);
}

#[test]
fn covering_differences() {
    let free_a = [[0, 0, 1, 0, NO, NC], [TEN, 8, 1, 1, NO, NC]];
    gives(CoveringDifference, (&A, WHOLE), (&B, WHOLE), &free_a);
    gives(CoveringDifference, (&B, WHOLE), (&A, WHOLE), &[]);
    let half = [[HALF, 1, 1, 0, NO, NC]];
    gives(CoveringDifference, (&B, WHOLE), (&A, at(TEN, 8)), &half);
    gives(CoveringDifference, (&B, at(TEN, 9)), (&A, at(TEN, 8)), &[]);
}

#[test]
fn covering_union_of_a_and_b() {
    let records = [
        [0, 0, 1, 0, NO, NC],
        [TEN, 8, 1, 1, NO, NC],
        [TEN, 9, 2, 1, 1, 8],
        [TEN_HIGH, 9, 3, 2, 2, NC],
        [HALF, 1, 2, 0, 0, 0],
    ];
    gives(CoveringUnion, (&A, WHOLE), (&B, WHOLE), &records);
}

#[test]
fn a_union_is_not_sorted_by_length_first() {
    // 128/1 alone is data bit 2 of the root; 10/8 is data bit 7 + 2 = 9 of child 1.
    let half = [4, 0, 1, 0];
    let eight = [0, 2, 1, 0, 0x200, 0, 2, 0];
    let records = [[TEN, 8, 2, NO, 0, NC], [HALF, 1, 1, 0, NO, NC]];
    gives(Union, (&half, WHOLE), (&eight, WHOLE), &records);
}

#[test]
fn equalities() {
    let lower = at(TEN_HIGH, 9);
    assert_eq!(equal_keys(32, &A, lower, &B, lower), plain(0, 1));
    let (upper, quarter) = (at(0xc000_0000_0000_0000, 2), at(0x4000_0000_0000_0000, 2));
    assert_eq!(equal_keys(32, &A, upper, &B, quarter), plain(0, 1));
    assert_eq!(equal_keys(32, &A, WHOLE, &B, WHOLE), plain(0, 0));
    assert_eq!(equal_keys(32, &A, WHOLE, &A, WHOLE), plain(0, 1));
}

/// The tidy pool has these words and this list, and both buffers keep their tails.
fn tidies(pool: &[u32], root: Root, words: &[u32], old: &[u32]) {
    let mut out = vec![77; words.len() + 5];
    let mut values = vec![88; old.len() + 3];
    let answer = tidy(32, pool, root, &mut out, &mut values);
    assert_eq!(answer, plain(0, words.len() as u64 / 4));
    assert_eq!(out, [words, &[77; 5]].concat());
    assert_eq!(values, [old, &[88; 3]].concat());
}

#[test]
fn tidy_pools() {
    let one_empty = [1, 2, 1, 0, 0, 0, 2, 1];
    assert_eq!(check(32, &one_empty), plain(0, 2));
    tidies(&one_empty, WHOLE, &[1, 0, 1, 0], &[0]);
    let lower = [0, 2, 1, 0, 0x100000, 0, 2, 0];
    tidies(&A, at(TEN_HIGH, 9), &lower, &[2]);
    tidies(&A, at(0xc000_0000_0000_0000, 2), &[0, 0, 1, 0], &[]);
    tidies(&A, WHOLE, &A, &[0, 1, 2]);
}

#[test]
fn tidy_refuses_6_before_7() {
    for (words, values, expected) in [
        (0, 0, plain(6, 2)),
        (7, 3, plain(6, 2)),
        (7, 2, plain(6, 2)),
        (8, 2, plain(7, 3)),
        (8, 0, plain(7, 3)),
        (8, 3, plain(0, 2)),
    ] {
        let (mut out, mut list) = (vec![77; words], vec![88; values]);
        assert_eq!(tidy(32, &A, WHOLE, &mut out, &mut list), expected);
        if expected.number != 0 {
            assert_eq!((out, list), (vec![77; words], vec![88; values]));
        }
    }
    let empty = at(0xc000_0000_0000_0000, 2);
    for words in 0..4 {
        let mut out = vec![77; words];
        assert_eq!(tidy(32, &A, empty, &mut out, &mut []), plain(6, 1));
    }
}

/// A chain of seven nodes with this data in the last one.
fn chain_of_seven(last: u32) -> [u32; 28] {
    [
        0, 1, 1, 0, 0, 1, 2, 0, 0, 1, 3, 0, 0, 1, 4, 0, 0, 1, 5, 0, 0, 1, 6, 0, last, 0, 7, 0,
    ]
}

fn fault(number: u64, node: u64) -> Answer {
    Answer {
        number: 2,
        beside: node,
        second: number,
    }
}

#[test]
fn checks() {
    assert_eq!(check(32, &[0, 0, 1, 0, 0, 0, 1, 0]), fault(3, 1));
    assert_eq!(check(32, &chain_of_seven(0x40)), plain(0, 7));
    assert_eq!(check(32, &chain_of_seven(0x80)), fault(4, 6));
    assert_eq!(check(64, &chain_of_seven(0x80)), plain(0, 7));
    assert_eq!(check(32, &A), plain(0, 2));
    assert_eq!(check(33, &[]), plain(1, 0));
    assert_eq!(check(32, &[]), fault(1, 0));
    assert_eq!(check(32, &[0, 0, 0, 0]), fault(6, 0));
    assert_eq!(check(32, &[0, 0, 0xffff_ffff, 0]), fault(6, 0));
    assert_eq!(check(32, &[0, 0, 1, 1]), fault(8, 0));
}

#[test]
fn checks_of_large_pools() {
    for width in [32, 64] {
        assert_eq!(check(width, &vec![0; 65_537 * 4]), fault(2, 0));
        assert_eq!(check(width, &vec![0; 65_537 * 4 + 3]), fault(1, 0));
        let mut words = largest_pool();
        assert_eq!(check(width, &words), plain(0, 65_536));
        let last = words.len() - 1;
        words[last] += 1;
        assert_eq!(check(width, &words), fault(8, 65_535));
    }
}

/// A pool of 65,536 nodes, each with one entry: all nodes take children until the count is full.
fn largest_pool() -> Vec<u32> {
    let mut words = Vec::new();
    let mut first_child = 1;
    for number in 0..65_536 {
        let children = (65_536 - first_child).min(32);
        let child = if children == 32 {
            u32::MAX
        } else {
            (1 << children) - 1
        };
        words.extend([1, child, first_child, number]);
        first_child += children;
    }
    words
}

#[test]
fn a_large_pool_has_its_answers() {
    let words = largest_pool();
    let (mut out, mut values) = (vec![0; words.len()], vec![0; 65_536]);
    let answer = tidy(32, &words, WHOLE, &mut out, &mut values);
    assert_eq!(answer, plain(0, 65_536));
    assert_eq!(out, words);
    assert!(values.iter().copied().eq(0..65_536));
    let answer = list(
        CoveringDifference,
        64,
        &words,
        WHOLE,
        &words,
        WHOLE,
        &mut [],
    );
    assert_eq!(answer, plain(0, 0));
    let answer = list(Union, 64, &words, WHOLE, &words, WHOLE, &mut []);
    assert_eq!(answer, plain(6, 65_536));
}

#[test]
fn refusals_in_their_order() {
    let bad = [0, 0, 1, 0, 0, 0, 1, 0];
    let long = at(0, 33);
    let ask = |width, left: &[u32], left_root, right: &[u32], right_root| {
        let equal = equal_keys(width, left, left_root, right, right_root);
        let listed = list(Union, width, left, left_root, right, right_root, &mut []);
        assert_eq!(equal, listed);
        equal
    };
    assert_eq!(ask(0, &bad, long, &bad, long), plain(1, 0));
    assert_eq!(ask(32, &bad, long, &[], long), plain(2, 1));
    assert_eq!(ask(32, &A, long, &bad, long), plain(3, 1));
    assert_eq!(ask(32, &A, long, &[], long), plain(3, 0));
    assert_eq!(ask(32, &A, long, &B, long), plain(4, 0));
    assert_eq!(ask(32, &A, WHOLE, &B, long), plain(5, 0));
    assert_eq!(ask(32, &A, at(0, u32::MAX), &B, long), plain(4, 0));
    assert_eq!(ask(64, &A, WHOLE, &B, at(0, 256 + 8)), plain(5, 0));
}

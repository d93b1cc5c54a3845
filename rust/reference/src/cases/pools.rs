//! Pools that several groups of cases use.

use crate::prefix::{Prefix, Root};
use crate::tidy::{add_nodes, table, words};

/// List A of the document.
pub const A: [u32; 8] = [1, 2, 1, 0, 0x100200, 0, 2, 1];
/// List B of the document.
pub const B: [u32; 8] = [4, 2, 1, 0, 0x180000, 0, 2, 1];

/// The key of an IPv4 address.
pub fn ip(a: u8, b: u8, c: u8, d: u8) -> u64 {
    u64::from(u32::from_be_bytes([a, b, c, d])) << 32
}

/// A root at an IPv4 address.
pub fn at(a: u8, b: u8, c: u8, d: u8, len: u32) -> Root {
    Root {
        key: ip(a, b, c, d),
        len,
    }
}

/// The tidy pool of these prefixes.
pub fn pool(prefixes: &[(u64, u32)]) -> Vec<u32> {
    untidy(prefixes, &[])
}

/// The pool of these prefixes with the nodes of the `empty` ones, which add no entry.
pub fn untidy(prefixes: &[(u64, u32)], empty: &[(u64, u32)]) -> Vec<u32> {
    let cut = |&(key, len): &(u64, u32)| Prefix::cut(key, len);
    let mut table = table(prefixes.iter().map(cut));
    for prefix in empty.iter().map(cut) {
        add_nodes(&mut table, prefix);
    }
    words(&table)
}

/// A chain of so many nodes, each the first child of the one before; the last has this data.
pub fn chain(nodes: u32, last_data: u32) -> Vec<u32> {
    let mut words = Vec::new();
    for number in 1..nodes {
        words.extend([0, 1, number, 0]);
    }
    words.extend([last_data, 0, nodes, 0]);
    words
}

/// A left pool with entries on many levels, width 32.
pub fn broad_left() -> Vec<u32> {
    pool(&[
        (0, 0),
        (ip(10, 0, 0, 0), 8),
        (ip(10, 16, 0, 0), 12),
        (ip(10, 18, 0, 0), 15),
        (ip(10, 16, 32, 0), 20),
        (ip(10, 16, 33, 0), 24),
        (ip(10, 16, 32, 5), 32),
        (ip(10, 128, 0, 0), 9),
        (ip(128, 0, 0, 0), 1),
        (ip(192, 168, 0, 0), 16),
    ])
}

/// A right pool that shares some of them, with empty nodes, width 32.
pub fn broad_right() -> Vec<u32> {
    let empty = [(ip(10, 130, 0, 0), 15), (ip(200, 0, 0, 0), 10)];
    let prefixes = [
        (ip(8, 0, 0, 0), 5),
        (ip(10, 0, 0, 0), 7),
        (ip(10, 16, 0, 0), 12),
        (ip(10, 18, 0, 0), 16),
        (ip(10, 16, 32, 0), 19),
        (ip(10, 16, 32, 0), 20),
        (ip(10, 16, 33, 128), 25),
        (ip(10, 16, 32, 5), 32),
        (ip(10, 64, 0, 0), 10),
        (ip(64, 0, 0, 0), 2),
        (ip(192, 168, 7, 0), 24),
    ];
    untidy(&prefixes, &empty)
}

/// The key that the deep pools share, width 64.
pub const DEEP: u64 = 0x2001_0db8_0123_4567;

/// A left pool that goes down to the last depth, width 64.
pub fn deep_left() -> Vec<u32> {
    pool(&[
        (DEEP, 3),
        (DEEP, 32),
        (DEEP, 48),
        (DEEP, 59),
        (DEEP, 60),
        (DEEP, 62),
        (DEEP, 64),
        (DEEP ^ 1, 64),
        (DEEP ^ 1 << 20, 45),
        (1 << 63, 1),
    ])
}

/// A right pool that shares some of them, width 64.
pub fn deep_right() -> Vec<u32> {
    let empty = [(DEEP ^ 1 << 22, 50)];
    let prefixes = [
        (0, 0),
        (DEEP, 33),
        (DEEP, 48),
        (DEEP, 60),
        (DEEP, 61),
        (DEEP, 64),
        (DEEP ^ 2, 64),
        (DEEP ^ 1 << 20, 46),
        (3 << 62, 2),
    ];
    untidy(&prefixes, &empty)
}

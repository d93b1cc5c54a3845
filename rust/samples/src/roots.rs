//! Roots of every kind near the nodes of a table.

use crate::random::Random;
use crate::shapes::any_node;
use pools::Table;

/// How many kinds of roots `near` draws from.
const ROOT_KINDS: usize = 13;

/// A word whose first `len` bits are ones.
fn mask(len: u32) -> u64 {
    u64::MAX.checked_shl(64 - len.min(64)).unwrap_or(0)
}

/// A length above the width, up to the largest number.
pub fn long_length(random: &mut Random, width: u32) -> u32 {
    let near = width.saturating_add(1 + random.below(3) as u32);
    let low = random.below(65) as u32;
    match random.below(8) {
        0..=2 => near,
        3 => width.saturating_add(random.below(256) as u32).max(near),
        4 => 256 + low,
        5 => (1 << 16) + low,
        6 => (1 << 31) + low,
        _ => u32::MAX - low / 8,
    }
}

/// A prefix that the table holds in any node with data, or the node's own prefix; cut inside the node to any length.
fn at_entry(random: &mut Random, table: &Table) -> (u64, u32) {
    let (depth, key) = any_node(random, table);
    let data = table[&(depth, key)];
    let bits: Vec<u32> = (0..31).filter(|bit| data >> bit & 1 == 1).collect();
    if bits.is_empty() {
        return (key, depth);
    }
    let place = bits[random.below(bits.len())] + 1;
    let count = place.ilog2();
    let value = u64::from(place - (1 << count));
    let low = value.checked_shl(64 - depth - count).unwrap_or(0);
    (key | low, depth + random.below(count as usize + 1) as u32)
}

/// The bits and length of a root of this kind.
fn of_kind(random: &mut Random, width: u32, table: &Table, kind: usize) -> (u64, u32) {
    let (depth, key) = any_node(random, table);
    let low = random.word() & !mask(depth);
    match kind {
        0 | 1 => (0, 0),
        2 => (random.word(), 0),
        3 => (key, depth),
        4 => (key | low, depth + random.below(5) as u32),
        5 => (key | low, depth.saturating_sub(1 + random.below(6) as u32)),
        6 => (key | low, depth + 5 + random.below(6) as u32),
        7 => {
            let len = 1 + random.below(width as usize) as u32;
            (key ^ 1 << (64 - len), len)
        }
        8 => (random.word(), random.below(width as usize + 1) as u32),
        9..=11 => at_entry(random, table),
        _ => (key | low, long_length(random, width)),
    }
}

/// A root: 0/0, at a node, in it, at or above an entry in it, above it, below it, beside it, anywhere or too long; its bits past the length are often not 0.
pub fn near(random: &mut Random, width: u32, table: &Table) -> (u64, u32) {
    let kind = match random.below(ROOT_KINDS * 4) {
        draw if draw < ROOT_KINDS * 4 - 3 => draw % (ROOT_KINDS - 1),
        _ => ROOT_KINDS - 1,
    };
    let (key, len) = of_kind(random, width, table, kind);
    let len = if kind < ROOT_KINDS - 1 {
        len.min(width)
    } else {
        len
    };
    match random.below(3) {
        0 => (key & mask(len), len),
        1 => (key, len),
        _ => (key & mask(len) | random.word() & !mask(len), len),
    }
}

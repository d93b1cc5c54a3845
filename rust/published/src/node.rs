//! The bits of a node: which data bit is which prefix, in which order they stand, and what each leads.

use crate::numbers::PrimInt;
use crate::table::{K, NUM_DATA};

/// For each data bit the value of its prefix's bits in the node, filled up to 4 bits, and how many of them count.
pub(crate) const DATA_BIT_TO_PREFIX: [(u8, u8); NUM_DATA] = prefixes();

/// Data bit 2^n - 1 + v is the prefix of n bits with the value v.
const fn prefixes() -> [(u8, u8); NUM_DATA] {
    let mut list = [(0, 0); NUM_DATA];
    let mut bit = 0;
    while bit < NUM_DATA {
        let count = (bit + 1).ilog2();
        let value = bit + 1 - (1 << count);
        list[bit] = ((value << (4 - count)) as u8, count as u8);
        bit += 1;
    }
    list
}

/// The value of `count` bits of a key after `depth`; bits past the key's end are 0.
fn bits<R: PrimInt>(key: R, depth: u32, count: u32) -> u32 {
    let width = R::zero().count_zeros();
    let places = (0..count).map(|place| {
        let at = depth + place;
        let set = at < width && key >> (width - 1 - at) as usize & R::one() == R::one();
        u32::from(set) << (count - 1 - place)
    });
    places.sum()
}

/// The child of a node at this depth on the way to a key.
pub(crate) fn child_bit<R: PrimInt>(depth: u32, key: R) -> u32 {
    bits(key, depth, K)
}

/// The data bit of a prefix in its node.
pub(crate) fn data_bit<R: PrimInt>(key: R, prefix_len: u32) -> u32 {
    let count = prefix_len % K;
    (1 << count) - 1 + bits(key, prefix_len - count, count)
}

/// The key of a child.
pub(crate) fn extend_repr<R: PrimInt>(key: R, depth: u32, child_bit: u32) -> R {
    let width = R::zero().count_zeros();
    let place = |count: u32| match width.checked_sub(depth + 1 + count) {
        Some(shift) if child_bit >> (4 - count) & 1 == 1 => R::one() << shift as usize,
        _ => R::zero(),
    };
    (0..K).fold(key, |key, count| key | place(count))
}

/// The data bits of a node at this depth whose prefixes lead a target.
pub(crate) fn data_lpm_mask<R: PrimInt>(depth: u32, key: R, len: u32) -> u32 {
    let counts = (0..K).filter(|count| depth + count <= len);
    let mask = counts.map(|count| 1 << ((1 << count) - 1 + bits(key, depth, count)));
    mask.sum()
}

/// Whether the prefix of a data bit leads the first bits with this value.
fn leads(data_bit: u32, count: u32, value: u32) -> bool {
    let (offset, own) = DATA_BIT_TO_PREFIX[data_bit as usize];
    let own = u32::from(own);
    own <= count && value >> (count - own) == u32::from(offset) >> (4 - own)
}

/// The data bits whose prefixes that of a data bit leads.
pub(crate) fn data_cover_mask_for_bit(data_bit: u32) -> u32 {
    let led = |other: &u32| {
        let (offset, count) = DATA_BIT_TO_PREFIX[*other as usize];
        leads(data_bit, u32::from(count), u32::from(offset) >> (4 - count))
    };
    (0..NUM_DATA as u32).filter(led).map(|bit| 1 << bit).sum()
}

/// The children whose prefixes that of a data bit leads.
pub(crate) fn child_cover_mask_for_bit(data_bit: u32) -> u32 {
    let led = (0..32).filter(|child| leads(data_bit, K, *child));
    led.map(|child| 1u32 << child).sum()
}

/// A data bit (`Ok`) or a child (`Err`), by the value of 5 bits where it starts and its length.
fn place(element: Result<u32, u32>) -> (u32, u32) {
    match element {
        Ok(bit) => {
            let (offset, count) = DATA_BIT_TO_PREFIX[bit as usize];
            (u32::from(offset) << 1, u32::from(count))
        }
        Err(child) => (child, K),
    }
}

/// All data bits and children of a node in the order of their prefixes.
pub(crate) fn lex_order() -> impl DoubleEndedIterator<Item = Result<u32, u32>> {
    let data = (0..NUM_DATA as u32).map(Ok);
    let mut all: Vec<Result<u32, u32>> = data.chain((0..32).map(Err)).collect();
    all.sort_by_key(|element| place(*element));
    all.into_iter()
}

/// The data bits and children from a place on.
fn from(first: (u32, u32)) -> (u32, u32) {
    let after = |element: Result<u32, u32>| u32::from(place(element) >= first);
    let data = (0..NUM_DATA as u32).map(|bit| after(Ok(bit)) << bit);
    let children = (0..32).map(|child| after(Err(child)) << child);
    (data.sum(), children.sum())
}

/// The data bits and children that do not stand before a data bit.
pub(crate) fn lex_after_data(data_bit: u32) -> (u32, u32) {
    from(place(Ok(data_bit)))
}

/// The data bits and children that stand after a child.
pub(crate) fn lex_after_child(child_bit: u32) -> (u32, u32) {
    from((child_bit, K + 1))
}

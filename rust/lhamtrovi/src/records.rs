//! The records of a list, taken from their words.

/// The words of a record.
pub const RECORD_WORDS: usize = 6;

/// The mark of a missing value.
const MISSING: u64 = 4_294_967_295;

/// The mark of a missing cover.
const NO_COVER: u64 = 255;

/// Which views a record's prefix is in.
#[derive(Clone, Copy, Debug, PartialEq, Eq)]
pub enum Side {
    /// In the left view alone.
    Left,
    /// In the right view alone.
    Right,
    /// In both.
    Both,
}

/// The longest prefix of the other view that leads a record's prefix, in a covering union.
#[derive(Clone, Copy, Debug, PartialEq, Eq)]
pub struct Cover {
    /// Its length.
    pub len: u32,
    /// Its value in the other view's pool.
    pub value: u32,
}

/// A prefix of a list.
#[derive(Clone, Copy, Debug, PartialEq, Eq)]
pub struct Record {
    /// The prefix's bits, first bit highest.
    pub key: u64,
    /// The prefix's length.
    pub len: u32,
    /// Which views it is in.
    pub side: Side,
    /// Its value in the left view's pool, if it is there.
    pub left: Option<u32>,
    /// Its value in the right view's pool, if it is there.
    pub right: Option<u32>,
    /// Its cover in the other view, in a covering union.
    pub cover: Option<Cover>,
}

/// The first `count` records of a list's words.
pub fn records(words: &[u64], count: usize) -> impl Iterator<Item = Record> + '_ {
    words.chunks_exact(RECORD_WORDS).take(count).map(record)
}

/// A value word, or none for the mark.
fn value(word: u64) -> Option<u32> {
    (word != MISSING).then_some(word as u32)
}

/// The record of six words. A one-sided record with a cover has the cover's value in the other side's word.
fn record(words: &[u64]) -> Record {
    let side = match words[2] {
        1 => Side::Left,
        2 => Side::Right,
        _ => Side::Both,
    };
    let (left, right) = (value(words[3]), value(words[4]));
    let (own_left, own_right, over) = match side {
        Side::Left => (left, None, right),
        Side::Right => (None, right, left),
        Side::Both => (left, right, None),
    };
    let cover = match (words[5], over) {
        (NO_COVER, _) | (_, None) => None,
        (len, Some(value)) => Some(Cover {
            len: len as u32,
            value,
        }),
    };
    Record {
        key: words[0],
        len: words[1] as u32,
        side,
        left: own_left,
        right: own_right,
        cover,
    }
}

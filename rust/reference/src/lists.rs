//! The five lists and key equality, over two views as sorted lists of entries.

use crate::pool::Entry;
use crate::prefix::{mask, Prefix};

/// Words of one record.
pub(crate) const RECORD_WORDS: usize = 6;
/// The word for a missing value.
pub(crate) const NO_VALUE: u64 = 4_294_967_295;
/// The word for a missing cover length.
pub(crate) const NO_COVER: u64 = 255;

/// The five operations that give a list.
#[derive(Clone, Copy, Debug, PartialEq, Eq)]
pub enum Operation {
    Union,
    Intersection,
    Difference,
    CoveringDifference,
    CoveringUnion,
}

/// The sides on which a record's prefix is an entry; the numbers are the tag words.
#[derive(Clone, Copy, Debug, PartialEq, Eq)]
enum Tag {
    Left = 1,
    Right = 2,
    Both = 3,
}

/// One line of an answer.
#[derive(Clone, Copy, Debug, PartialEq, Eq)]
pub(crate) struct Record {
    prefix: Prefix,
    tag: Tag,
    left: Option<u32>,
    right: Option<u32>,
    cover: Option<u32>,
}

impl Record {
    /// The six words of the record.
    pub fn words(&self) -> [u64; RECORD_WORDS] {
        let value = |side: Option<u32>| side.map_or(NO_VALUE, u64::from);
        [
            self.prefix.key,
            u64::from(self.prefix.len),
            self.tag as u64,
            value(self.left),
            value(self.right),
            self.cover.map_or(NO_COVER, u64::from),
        ]
    }
}

/// The records of an operation, ascending.
pub(crate) fn records(operation: Operation, left: &[Entry], right: &[Entry]) -> Vec<Record> {
    match operation {
        Operation::Union => union(left, right),
        Operation::Intersection => intersection(left, right),
        Operation::Difference => difference(left, right),
        Operation::CoveringDifference => covering_difference(left, right),
        Operation::CoveringUnion => covering_union(left, right),
    }
}

/// D6: the same prefixes on both sides; values play no part.
pub(crate) fn same_prefixes(left: &[Entry], right: &[Entry]) -> bool {
    let left = left.iter().map(|entry| entry.prefix);
    left.eq(right.iter().map(|entry| entry.prefix))
}

/// The entry with exactly this prefix.
fn find(view: &[Entry], prefix: Prefix) -> Option<Entry> {
    let place = view.binary_search_by_key(&prefix, |entry| entry.prefix);
    place.ok().map(|place| view[place])
}

/// The longest entry that leads this prefix: every length is tried, the longest first.
fn longest_leading(view: &[Entry], prefix: Prefix) -> Option<Entry> {
    let lengths = (0..=prefix.len).rev();
    let mut shorter = lengths.map(|len| Prefix {
        key: prefix.key & mask(len),
        len,
    });
    shorter.find_map(|candidate| find(view, candidate))
}

/// The record of an entry that only the left view has.
fn left_only(entry: &Entry) -> Record {
    Record {
        prefix: entry.prefix,
        tag: Tag::Left,
        left: Some(entry.value),
        right: None,
        cover: None,
    }
}

/// The record of an entry that only the right view has.
fn right_only(entry: &Entry) -> Record {
    Record {
        prefix: entry.prefix,
        tag: Tag::Right,
        left: None,
        right: Some(entry.value),
        cover: None,
    }
}

/// The record of a prefix that both views have.
fn on_both(left: &Entry, right: &Entry) -> Record {
    Record {
        prefix: left.prefix,
        tag: Tag::Both,
        left: Some(left.value),
        right: Some(right.value),
        cover: None,
    }
}

/// D1: the left-only, right-only and shared prefixes, put together and sorted.
fn union(left: &[Entry], right: &[Entry]) -> Vec<Record> {
    let lone_right = right.iter().filter(|r| find(left, r.prefix).is_none());
    let mut all = difference(left, right);
    all.extend(intersection(left, right));
    all.extend(lone_right.map(right_only));
    all.sort_by_key(|record| record.prefix);
    all
}

/// D2: prefixes in both.
fn intersection(left: &[Entry], right: &[Entry]) -> Vec<Record> {
    let shared = |l: &Entry| find(right, l.prefix).map(|r| on_both(l, &r));
    left.iter().filter_map(shared).collect()
}

/// D3: prefixes in the left view and not in the right one.
fn difference(left: &[Entry], right: &[Entry]) -> Vec<Record> {
    let lone = left.iter().filter(|l| find(right, l.prefix).is_none());
    lone.map(left_only).collect()
}

/// D4: prefixes in the left view that no entry of the right one leads.
fn covering_difference(left: &[Entry], right: &[Entry]) -> Vec<Record> {
    let is_free = |l: &&Entry| longest_leading(right, l.prefix).is_none();
    left.iter().filter(is_free).map(left_only).collect()
}

/// D5: the union, and each one-sided record with its cover in the other view.
fn covering_union(left: &[Entry], right: &[Entry]) -> Vec<Record> {
    let mut all = union(left, right);
    for record in &mut all {
        let (other, value) = match record.tag {
            Tag::Left => (right, &mut record.right),
            Tag::Right => (left, &mut record.left),
            Tag::Both => continue,
        };
        if let Some(cover) = longest_leading(other, record.prefix) {
            *value = Some(cover.value);
            record.cover = Some(cover.prefix.len);
        }
    }
    all
}

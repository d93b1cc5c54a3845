//! The answers of the published set views.

use crate::answers::{Answers, Record};
use crate::cases::Case;
use crate::numbers::PrimInt;
use crate::prefix::Prefix;
use crate::trieview::{CoveringUnionItem, TrieRef, TrieView, UnionItem};

const NO_VALUE: u64 = 4_294_967_295;
const NO_COVER: u64 = 255;
/// A pool without entries: its whole view stands for an absent one.
const EMPTY: [u32; 4] = [0, 0, 1, 0];

/// Keys of either width, as the upper bits of 64.
pub trait Key: PrimInt {
    /// From 64 bits.
    fn narrow(key: u64) -> Self;
    /// To 64 bits.
    fn wide(self) -> u64;
}

impl Key for u32 {
    fn narrow(key: u64) -> u32 {
        (key >> 32) as u32
    }

    fn wide(self) -> u64 {
        u64::from(self) << 32
    }
}

impl Key for u64 {
    fn narrow(key: u64) -> u64 {
        key
    }

    fn wide(self) -> u64 {
        self
    }
}

/// The answers of the published views to a case.
pub fn views(case: &Case) -> Answers {
    match case.width {
        32 => answers::<u32>(case),
        _ => answers::<u64>(case),
    }
}

/// Whether the published `find` gives no view for one of the roots.
pub fn absent(case: &Case) -> bool {
    match case.width {
        32 => lacks_view::<u32>(case),
        _ => lacks_view::<u64>(case),
    }
}

/// The same over keys of one type.
fn lacks_view<R: Key + 'static>(case: &Case) -> bool {
    let is_none = |words: &[u32], root| found::<R>(words, root).is_none();
    is_none(&case.left, case.left_root) || is_none(&case.right, case.right_root)
}

/// The view that the published `find` gives.
fn found<R: Key + 'static>(words: &[u32], root: (u64, u32)) -> Option<TrieRef<'_, (R, u8)>> {
    let root = (R::narrow(root.0), root.1 as u8);
    TrieRef::whole(words).find(&root)
}

/// The view at a root as the published `find` gives it; where it gives none, the view of an empty pool.
fn at_root<R: Key + 'static>(words: &[u32], root: (u64, u32)) -> TrieRef<'_, (R, u8)> {
    found(words, root).unwrap_or(TrieRef::whole(&EMPTY))
}

/// The answers over keys of one type.
fn answers<R: Key + 'static>(case: &Case) -> Answers {
    let left = at_root::<R>(&case.left, case.left_root);
    let right = at_root::<R>(&case.right, case.right_root);
    let union = left.union(right).iter().map(|(p, item)| of_union(p, item));
    let shared = left
        .intersection(right)
        .into_iter()
        .flat_map(|view| view.iter());
    let shared = shared.map(|(p, (l, r))| record(p, 3, Some(l), Some(r), None));
    let difference = left.difference(right).iter();
    let uncovered = left.covering_difference(right).iter();
    let covering = left.covering_union(right).iter();
    Answers {
        lists: [
            union.collect(),
            shared.collect(),
            difference
                .map(|(p, l)| record(p, 1, Some(l), None, None))
                .collect(),
            uncovered
                .map(|(p, l)| record(p, 1, Some(l), None, None))
                .collect(),
            covering
                .map(|(p, item)| of_covering_union(p, item))
                .collect(),
        ],
        equal: left.eq_keys(right),
    }
}

/// A record's words.
fn record<R: Key>(
    prefix: (R, u8),
    tag: u64,
    left: Option<u32>,
    right: Option<u32>,
    cover: Option<u8>,
) -> Record {
    let value = |value: Option<u32>| value.map_or(NO_VALUE, u64::from);
    let cover = cover.map_or(NO_COVER, u64::from);
    let (key, len) = (prefix.0.wide(), u64::from(prefix.1));
    [key, len, tag, value(left), value(right), cover]
}

/// The record of a union's item.
fn of_union<R: Key>(prefix: (R, u8), item: UnionItem<u32, u32>) -> Record {
    match item {
        UnionItem::Left(left) => record(prefix, 1, Some(left), None, None),
        UnionItem::Right(right) => record(prefix, 2, None, Some(right), None),
        UnionItem::Both(left, right) => record(prefix, 3, Some(left), Some(right), None),
    }
}

/// The record of a covering union's item; a cover's bits must be those of the prefix.
fn of_covering_union<R: Key>(
    prefix: (R, u8),
    item: CoveringUnionItem<(R, u8), u32, u32>,
) -> Record {
    let leads = |cover: &Option<((R, u8), u32)>| {
        let good = cover
            .as_ref()
            .is_none_or(|(cover, _)| cover.contains(&prefix));
        assert!(good, "a cover does not lead its prefix");
    };
    match item {
        CoveringUnionItem::Left { left, right_lpm } => {
            leads(&right_lpm);
            let (cover, value) = right_lpm.unzip();
            record(prefix, 1, Some(left), value, cover.map(|cover| cover.1))
        }
        CoveringUnionItem::Right { left_lpm, right } => {
            leads(&left_lpm);
            let (cover, value) = left_lpm.unzip();
            record(prefix, 2, value, Some(right), cover.map(|cover| cover.1))
        }
        CoveringUnionItem::Both { left, right } => record(prefix, 3, Some(left), Some(right), None),
    }
}

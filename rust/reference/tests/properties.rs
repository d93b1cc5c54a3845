//! Properties that hold for all inputs, tried on random pools.
#![deny(warnings)]
#![forbid(unsafe_code)]

use reference::cases::{random_pair, random_pool, Random};
use reference::vectors::OPERATIONS;
use reference::Operation::{CoveringDifference, CoveringUnion, Difference, Intersection, Union};
use reference::{check, equal_keys, list, tidy, Operation, Prefix, Root};

const ROUNDS: usize = 600;
const WHOLE: Root = Root { key: 0, len: 0 };
const NO: u64 = 4294967295;
type Record = [u64; 6];
type View<'a> = (&'a [u32], Root);

/// The records of a list, with room enough.
fn records(operation: Operation, width: u32, left: View, right: View) -> Vec<Record> {
    let mut out = vec![0; 6 * 31 * (left.0.len() + right.0.len())];
    let answer = list(operation, width, left.0, left.1, right.0, right.1, &mut out);
    assert_eq!(answer.number, 0);
    let all = out.chunks_exact(6).take(answer.beside as usize);
    all.map(|record| record.try_into().unwrap()).collect()
}

/// The words and the value list of the tidy pool.
fn tidied(width: u32, view: View) -> (Vec<u32>, Vec<u32>) {
    let mut out = vec![0; view.0.len()];
    let mut values = vec![0; 31 * view.0.len()];
    let answer = tidy(width, view.0, view.1, &mut out, &mut values);
    assert_eq!(answer.number, 0);
    out.truncate(answer.beside as usize * 4);
    let entries = out.iter().step_by(4).map(|data| data.count_ones());
    values.truncate(entries.sum::<u32>() as usize);
    (out, values)
}

/// The entries of a view in order: the difference from an empty pool.
fn entries(width: u32, view: View) -> Vec<(Prefix, u64)> {
    let empty = (&[0, 0, 1, 0][..], WHOLE);
    let all = records(Difference, width, view, empty);
    all.iter().map(|r| (prefix(r), r[3])).collect()
}

fn prefix(record: &Record) -> Prefix {
    let len = record[1] as u32;
    Prefix {
        key: record[0],
        len,
    }
}

/// Any root: 0/0, or the start of an entry, sometimes with one bit turned.
fn any_root(random: &mut Random, width: u32, words: &[u32]) -> Root {
    let entries = entries(width, (words, WHOLE));
    if entries.is_empty() || random.once_in(3) {
        return WHOLE;
    }
    let entry = entries[random.below(entries.len())].0;
    let len = random.below(entry.len as usize + 1) as u32;
    let turned = u64::from(random.once_in(4)) << (63 - random.below(64));
    let key = entry.key ^ turned;
    Root { key, len }
}

/// Calls the test with many pairs of views at both widths.
fn for_views(seed: u64, test: impl Fn(u32, View, View)) {
    let mut random = Random::new(seed);
    for round in 0..ROUNDS {
        let width = [32, 64][round % 2];
        let (left, right) = random_pair(&mut random, width);
        let left_root = any_root(&mut random, width, &left);
        let right_root = match random.once_in(2) {
            true => left_root,
            false => any_root(&mut random, width, &right),
        };
        test(width, (&left, left_root), (&right, right_root));
    }
}

#[test]
fn random_pools_are_well_formed() {
    let mut random = Random::new(3);
    for round in 0..ROUNDS {
        let width = [32, 64][round % 2];
        let pool = random_pool(&mut random, width);
        let answer = check(width, &pool);
        assert_eq!((answer.number, answer.second), (0, 0));
        assert_eq!(answer.beside, pool.len() as u64 / 4);
    }
}

#[test]
fn lists_are_as_defined() {
    for_views(5, |width, left, right| {
        let (l, r) = (&entries(width, left), &entries(width, right));
        for operation in OPERATIONS {
            let expected = by_definition(operation, l, r);
            assert_eq!(records(operation, width, left, right), expected);
        }
    });
}

/// The records by the document's words, by plain search in all entries.
fn by_definition(operation: Operation, l: &[(Prefix, u64)], r: &[(Prefix, u64)]) -> Vec<Record> {
    let mut prefixes: Vec<Prefix> = l.iter().chain(r).map(|e| e.0).collect();
    prefixes.sort_by_key(|p| (p.key, p.len));
    prefixes.dedup();
    let wanted = |p: &Prefix| {
        let (in_l, in_r) = (value(l, *p).is_some(), value(r, *p).is_some());
        match operation {
            Union | CoveringUnion => true,
            Intersection => in_l && in_r,
            Difference => in_l && !in_r,
            CoveringDifference => in_l && !r.iter().any(|e| e.0.leads(*p)),
        }
    };
    let covered = operation == CoveringUnion;
    let kept = prefixes.iter().filter(|p| wanted(p));
    kept.map(|p| record(*p, l, r, covered)).collect()
}

/// The value of exactly this prefix.
fn value(view: &[(Prefix, u64)], prefix: Prefix) -> Option<u64> {
    view.iter().find(|e| e.0 == prefix).map(|e| e.1)
}

/// The record of a prefix in one or both views.
fn record(p: Prefix, l: &[(Prefix, u64)], r: &[(Prefix, u64)], covered: bool) -> Record {
    let cover = |view: &[(Prefix, u64)]| {
        let leading = view.iter().filter(|e| covered && e.0.leads(p));
        let longest = leading.max_by_key(|e| e.0.len);
        longest.map_or((NO, 255), |e| (e.1, u64::from(e.0.len)))
    };
    let (key, len) = (p.key, u64::from(p.len));
    match (value(l, p), value(r, p)) {
        (Some(left), Some(right)) => [key, len, 3, left, right, 255],
        (Some(left), None) => [key, len, 1, left, cover(r).0, cover(r).1],
        (None, Some(right)) => [key, len, 2, cover(l).0, right, cover(l).1],
        (None, None) => panic!("a prefix of neither view"),
    }
}

#[test]
fn records_ascend_strictly() {
    for_views(7, |width, left, right| {
        for operation in OPERATIONS {
            let all = records(operation, width, left, right);
            let ascends = |pair: &[Record]| (pair[0][0], pair[0][1]) < (pair[1][0], pair[1][1]);
            assert!(all.windows(2).all(ascends));
        }
    });
}

#[test]
fn covering_difference_is_covering_union_without_cover() {
    for_views(11, |width, left, right| {
        let mut all = records(CoveringUnion, width, left, right);
        all.retain(|r| r[2] == 1 && r[5] == 255);
        assert_eq!(records(CoveringDifference, width, left, right), all);
    });
}

#[test]
fn tidy_pools_hold_the_view_and_stay_the_same() {
    for_views(13, |width, left, _| {
        let (words, values) = tidied(width, left);
        assert_eq!(check(width, &words).number, 0);
        assert!(words.len() <= left.0.len());
        let before = entries(width, left);
        let after = entries(width, (&words, WHOLE));
        assert_eq!(before.len(), after.len());
        for (old, new) in before.iter().zip(&after) {
            assert_eq!(old.0, new.0);
            assert_eq!(old.1, u64::from(values[new.1 as usize]));
        }
        let (again, same) = tidied(width, (&words, WHOLE));
        assert_eq!(again, words);
        assert!(same.iter().copied().eq(0..values.len() as u32));
    });
}

#[test]
fn every_tidy_node_is_needed() {
    for_views(17, |width, left, _| {
        let (words, _) = tidied(width, left);
        let mut nodes = words.chunks_exact(4).skip(1);
        assert!(nodes.all(|node| node[0] != 0 || node[1] != 0));
    });
}

#[test]
fn views_are_equal_exactly_when_their_tidy_pools_are() {
    for_views(19, |width, left, right| {
        let same = tidied(width, left).0 == tidied(width, right).0;
        let answer = equal_keys(width, left.0, left.1, right.0, right.1);
        assert_eq!((answer.number, answer.beside), (0, u64::from(same)));
        let (words, _) = tidied(width, left);
        let answer = equal_keys(width, left.0, left.1, &words, WHOLE);
        assert_eq!((answer.number, answer.beside), (0, 1));
    });
}

#[test]
fn a_refused_call_changes_no_word() {
    let mut random = Random::new(23);
    for _ in 0..ROUNDS * 4 {
        let width = [32, 64, 33][random.below(3)];
        let (mut left, right) = random_pair(&mut random, if width == 33 { 32 } else { width });
        if random.once_in(3) {
            let place = random.below(left.len());
            left[place] ^= 1 << random.below(32);
        }
        let len = [0, 3, width, width + 1, u32::MAX][random.below(5)];
        let key = random.word();
        let root = Root { key, len };
        refused_list_keeps(&mut random, width, (&left, root), (&right, WHOLE));
        refused_list_keeps(&mut random, width, (&right, WHOLE), (&left, root));
        refused_tidy_keeps(&mut random, width, (&left, root));
    }
}

/// Calls a list with any room; if it is refused its output is as before.
fn refused_list_keeps(random: &mut Random, width: u32, left: View, right: View) {
    let before = vec![0x77; random.below(200)];
    let mut out = before.clone();
    let operation = OPERATIONS[random.below(5)];
    let answer = list(operation, width, left.0, left.1, right.0, right.1, &mut out);
    let used = match answer.number {
        0 => answer.beside as usize * 6,
        _ => 0,
    };
    assert_eq!(out[used..], before[used..]);
}

/// Tidies with any room; if that is refused both buffers are as before.
fn refused_tidy_keeps(random: &mut Random, width: u32, view: View) {
    let before = (vec![0x77; random.below(60)], vec![0x88; random.below(30)]);
    let mut after = before.clone();
    let answer = tidy(width, view.0, view.1, &mut after.0, &mut after.1);
    if answer.number != 0 {
        assert_eq!(after, before);
    }
}

#[test]
fn any_words_get_an_answer() {
    let mut random = Random::new(29);
    for _ in 0..ROUNDS * 4 {
        let width = [32, 64, 0, u32::MAX, random.word() as u32][random.below(5)];
        let root = Root {
            key: random.word(),
            len: (random.word() >> random.below(64)) as u32,
        };
        let count = random.below(24);
        let shift = random.below(64);
        let words: Vec<u32> = (0..count)
            .map(|_| (random.word() >> shift) as u32)
            .collect();
        let answer = check(width, &words);
        assert!(answer.number <= 2 && answer.second <= 8);
        let equal = equal_keys(width, &words, root, &words, root);
        assert!(equal.number <= 4);
        refused_list_keeps(&mut random, width, (&words, root), (&words, WHOLE));
        refused_tidy_keeps(&mut random, width, (&words, root));
    }
}

//! Pairs of roots, covers, orders and last nodes.

use super::pools::{at, broad_left, broad_right, deep_left, deep_right, ip, pool, untidy, DEEP};
use super::{exact_words, name_of, view, CaseList, WHOLE};
use crate::prefix::mask;
use crate::Operation::{CoveringDifference, CoveringUnion};
use crate::Root;

/// Adds them all.
pub fn add(list: &mut CaseList) {
    add_orders(list);
    add_covers(list);
    add_covers_above_left_root(list);
    add_broad_pairs(list);
    add_deep_pairs(list);
    add_stray_bits(list);
    add_far_lengths(list);
    add_roots_at_width(list);
    add_last_nodes(list);
}

/// Lists in which the longer prefix comes first.
fn add_orders(list: &mut CaseList) {
    let half = &view(&pool(&[(ip(128, 0, 0, 0), 1)]), WHOLE);
    let eight = &view(&pool(&[(ip(10, 0, 0, 0), 8)]), WHOLE);
    list.two_sided("128/1 and 10/8", 32, (half, eight), 0);
    list.two_sided("10/8 and 128/1", 32, (eight, half), 0);
    let left = [(0, 32), (0, 5), (ip(8, 0, 0, 0), 5), (ip(128, 0, 0, 0), 1)];
    let right = [(0, 0), (0, 4), (0, 6), (ip(8, 0, 0, 0), 6), (0, 31)];
    let (left, right) = (&view(&pool(&left), WHOLE), &view(&pool(&right), WHOLE));
    let name = "one key with many lengths";
    list.two_sided(name, 32, (left, right), 3);
    list.two_sided("many lengths, sides changed", 32, (right, left), 3);
}

/// Covers of length 0 and of other lengths.
fn add_covers(list: &mut CaseList) {
    let all = &view(&pool(&[(0, 0)]), WHOLE);
    let far = pool(&[(0, 1), (ip(255, 255, 255, 255), 32), (ip(10, 0, 0, 0), 8)]);
    let far = &view(&far, WHOLE);
    list.two_sided("a right cover of length 0", 32, (far, all), 1);
    list.two_sided("a left cover of length 0", 32, (all, far), 1);
    let none = &view(&pool(&[]), WHOLE);
    list.two_sided("nothing on the right", 32, (far, none), 1);
    list.two_sided("nothing on the left", 32, (none, far), 1);
    list.two_sided("nothing on both sides", 32, (none, none), 1);
    let deep = &view(&pool(&[(DEEP, 64), (DEEP, 31)]), WHOLE);
    let all = &view(&pool(&[(0, 0), (DEEP, 30)]), WHOLE);
    list.two_sided("covers 0 and 30", 64, (deep, all), 1);
}

/// Right entries between a node's depth and the left root in that node or below it.
fn add_covers_above_left_root(list: &mut CaseList) {
    let left = pool(&[(ip(10, 36, 0, 0), 14), (ip(10, 36, 1, 0), 24)]);
    let left = view(&left, WHOLE);
    let covers = [(10, 0), (11, 11), (12, 0), (13, 10), (14, 14), (9, 0)];
    for (len, right_root) in covers {
        let right = pool(&[(ip(10, 36, 0, 0), len), (ip(10, 36, 1, 4), 31)]);
        let right = &view(&right, at(10, 36, 0, 0, right_root));
        for left_root in [10, 13, 14, 15, 19, 22] {
            let mut left = left.clone();
            left.root = at(10, 36, 0, 0, left_root);
            let name = format!("left root /{left_root}, right root /{right_root}, cover /{len}");
            for operation in [CoveringDifference, CoveringUnion] {
                let words = exact_words(operation, 32, &left, right);
                let full = format!("{}, {name}", name_of(operation));
                list.list(full, operation, 32, (&left, right), words);
            }
        }
    }
}

/// Two roots with the name of how they lie.
type Pair = (&'static str, Root, Root);

/// Roots at width 32 of which one leads the other.
fn nested_roots() -> Vec<Pair> {
    let ten = at(10, 0, 0, 0, 8);
    let twelve = at(10, 16, 0, 0, 12);
    let twenty = at(10, 16, 32, 0, 20);
    let above = at(10, 16, 0, 0, 11);
    let below = at(10, 16, 0, 0, 13);
    let one = at(10, 16, 32, 5, 32);
    let branch = at(192, 168, 7, 0, 24);
    vec![
        ("both 0/0", WHOLE, WHOLE),
        ("both 10/8", ten, ten),
        ("both one address", one, one),
        ("same node, right below", ten, at(10, 128, 0, 0, 9)),
        ("same node, left below", below, above),
        ("right shallower", twelve, WHOLE),
        ("right shallower by two nodes", twenty, at(10, 0, 0, 0, 7)),
        ("right deeper", WHOLE, twelve),
        ("right deeper by three nodes", at(8, 0, 0, 0, 6), twenty),
        ("right deeper in another branch", WHOLE, branch),
    ]
}

/// Roots at width 32 that lie side by side, or of which one has no entry.
fn parted_roots() -> Vec<Pair> {
    let ten = at(10, 0, 0, 0, 8);
    let (low, high) = (at(10, 0, 0, 0, 9), at(10, 128, 0, 0, 9));
    let twenty = at(10, 16, 32, 0, 20);
    let absent = at(172, 16, 0, 0, 12);
    let empty = at(10, 130, 0, 0, 15);
    let (first, second) = (at(0, 0, 0, 0, 1), at(128, 0, 0, 0, 1));
    vec![
        ("diverging in a node", low, high),
        ("diverging in the root node", second, first),
        ("diverging across nodes", twenty, at(10, 18, 0, 0, 15)),
        ("diverging at the first bit", at(192, 168, 0, 0, 16), ten),
        ("left absent", absent, WHOLE),
        ("right absent", WHOLE, absent),
        ("both absent", absent, at(11, 0, 0, 0, 32)),
        ("a node but no entry", at(11, 0, 0, 0, 8), empty),
        ("right an empty node", WHOLE, at(200, 0, 0, 0, 9)),
    ]
}

/// All kinds with each of these pairs, and tidying with each root.
fn add_broad_pairs(list: &mut CaseList) {
    let (left, right) = (broad_left(), broad_right());
    let pairs = nested_roots().into_iter().chain(parted_roots());
    for (name, left_root, right_root) in pairs {
        let (l, r) = (&view(&left, left_root), &view(&right, right_root));
        list.two_sided(name, 32, (l, r), 2);
        list.roomy_tidy(&format!("{name}, left"), 32, l, 2);
        list.roomy_tidy(&format!("{name}, right"), 32, r, 2);
    }
}

/// The same at width 64, down to the last depth.
fn add_deep_pairs(list: &mut CaseList) {
    let root = |len| Root { key: DEEP, len };
    let beside = |bit: u32, len| Root {
        key: DEEP ^ 1 << bit,
        len,
    };
    let pairs = [
        ("both 0/0", WHOLE, WHOLE),
        ("same node", root(46), root(48)),
        ("right deeper", root(5), root(60)),
        ("right shallower", root(61), root(33)),
        ("right between", root(62), root(61)),
        ("diverging in a node", beside(0, 64), beside(1, 64)),
        ("diverging across nodes", root(48), beside(20, 46)),
        ("both one key", root(64), root(64)),
        ("right absent", root(30), beside(40, 50)),
    ];
    let (left, right) = (deep_left(), deep_right());
    for (name, left_root, right_root) in pairs {
        let (l, r) = (&view(&left, left_root), &view(&right, right_root));
        let name = format!("width 64, {name}");
        list.two_sided(&name, 64, (l, r), 0);
        list.roomy_tidy(&format!("{name}, left"), 64, l, 0);
        list.roomy_tidy(&format!("{name}, right"), 64, r, 0);
    }
}

/// The root with all bits past its length set.
fn stray(root: Root) -> Root {
    Root {
        key: root.key | !mask(root.len),
        len: root.len,
    }
}

/// Roots with bits past the length, which are ignored.
fn add_stray_bits(list: &mut CaseList) {
    let (left, right) = (broad_left(), broad_right());
    let one = at(10, 16, 32, 5, 32);
    let pairs = [
        ("length 0", WHOLE, WHOLE),
        ("length 8 and 9", at(10, 0, 0, 0, 8), at(10, 0, 0, 0, 9)),
        ("length 32 and 12", one, at(10, 16, 0, 0, 12)),
        ("length 7 and 32", at(10, 0, 0, 0, 7), one),
    ];
    for (name, left_root, right_root) in pairs {
        let l = &view(&left, stray(left_root));
        let r = &view(&right, stray(right_root));
        let name = format!("stray bits, {name}");
        list.two_sided(&name, 32, (l, r), 0);
        list.roomy_tidy(&format!("{name}, left"), 32, l, 0);
    }
    let root = |len| stray(Root { key: DEEP, len });
    let (l, r) = (
        &view(&deep_left(), root(59)),
        &view(&deep_right(), root(63)),
    );
    list.two_sided("stray bits, width 64", 64, (l, r), 0);
    list.roomy_tidy("stray bits, width 64", 64, r, 0);
}

/// Roots /8 and /20 that share 7 bits, with entries of both pools above the roots.
fn add_far_lengths(list: &mut CaseList) {
    let above = [(0, 0), (ip(8, 0, 0, 0), 5), (ip(10, 0, 0, 0), 7)];
    let mut entries = above.to_vec();
    entries.extend([(ip(10, 0, 0, 0), 8), (ip(10, 64, 0, 0), 10)]);
    entries.extend([(ip(10, 0, 0, 0), 9), (ip(10, 255, 255, 255), 32)]);
    entries.extend([(ip(11, 0, 0, 0), 8), (ip(11, 16, 0, 0), 12)]);
    entries.extend([(ip(11, 16, 32, 0), 20), (ip(11, 16, 33, 0), 24)]);
    let both = untidy(&entries, &[(ip(11, 16, 48, 0), 22)]);
    let eight = &view(&both, at(10, 0, 0, 0, 8));
    let twenty = &view(&both, at(11, 16, 32, 0, 20));
    list.two_sided("roots /8 and /20 share 7 bits", 32, (eight, twenty), 0);
    list.two_sided("roots /20 and /8 share 7 bits", 32, (twenty, eight), 0);
}

/// Roots of length exactly the width, and of one more and much more.
fn add_roots_at_width(list: &mut CaseList) {
    let far = u64::MAX;
    for width in [32, 64] {
        let words = pool(&[(far, width), (far, width - 1), (0, width), (0, 0)]);
        let root = |len| Root { key: far, len };
        let whole = &view(&words, WHOLE);
        let exact = &view(&words, root(width));
        let name = format!("width {width}, length {width}");
        list.two_sided(&format!("{name} left"), width, (exact, whole), 0);
        list.two_sided(&format!("{name} right"), width, (whole, exact), 0);
        list.roomy_tidy(&name, width, exact, 0);
        for len in [width + 1, 256 + 8, 0x8000_0000, 0xffff_ffff] {
            let long = &view(&words, root(len));
            let name = format!("width {width}, length {len}");
            let left = format!("{name} left: refusal 4");
            list.two_sided(&left, width, (long, whole), 7);
            let right = format!("{name} right: refusal 5");
            list.two_sided(&right, width, (whole, long), 7);
            list.tidy(format!("tidy, {left}"), width, long, (9, 4));
        }
    }
}

/// Keys in the nodes at the last depth, all lengths there.
fn add_last_nodes(list: &mut CaseList) {
    for (width, key) in [(32, ip(10, 20, 30, 40)), (64, DEEP)] {
        let depth = width / 5 * 5;
        let last = |value: u64, len: u32| (key & mask(depth) | value << (64 - len), len);
        let mut left = vec![last(0, depth), last(1, depth + 1)];
        let values = (0..1 << (width - depth)).step_by(3);
        left.extend(values.map(|value| last(value, width)));
        let right: Vec<_> = (depth..=width).map(|len| last(0, len)).collect();
        let (left, right) = (pool(&left), pool(&right));
        for len in depth - 1..=width {
            let root = Root { key, len };
            let (l, r) = (&view(&left, root), &view(&right, WHOLE));
            let name = format!("width {width}, last node, left length {len}");
            list.two_sided(&name, width, (l, r), 0);
            list.roomy_tidy(&name, width, l, 0);
        }
        for len in [depth, width - 1, width] {
            let root = Root { key, len };
            let (l, r) = (&view(&left, WHOLE), &view(&right, root));
            let name = format!("width {width}, last node, right length {len}");
            list.two_sided(&name, width, (l, r), 0);
        }
    }
}

//! One pool on both sides, key equality, and tidying.

use super::pools::{at, broad_left, broad_right, chain, ip, pool, untidy, A, B};
use super::{view, CaseList, WHOLE};
use crate::Root;

/// Adds them all.
pub fn add(list: &mut CaseList) {
    add_same_pool(list);
    add_equal(list);
    add_unequal(list);
    add_empty_equal(list);
    add_tidies(list);
    add_tidies_of_a(list);
    add_empty_tidies(list);
}

/// The same pool on both sides, at the same and at other roots.
fn add_same_pool(list: &mut CaseList) {
    let words = broad_right();
    let pairs = [
        ("at 0/0", WHOLE, WHOLE),
        ("right below", WHOLE, at(10, 16, 0, 0, 12)),
        ("left below", at(10, 16, 32, 0, 20), at(10, 0, 0, 0, 7)),
        ("side by side", at(10, 16, 32, 0, 20), at(10, 64, 0, 0, 10)),
    ];
    for (name, left, right) in pairs {
        let (l, r) = (&view(&words, left), &view(&words, right));
        list.two_sided(&format!("one pool twice, {name}"), 32, (l, r), 0);
    }
    let a = &view(&A, WHOLE);
    list.two_sided("A twice", 32, (a, a), 1);
    list.two_sided("A twice, width 64", 64, (a, a), 1);
}

/// Some prefixes, the same with empty nodes, and the same with more before them.
fn three_pools() -> [Vec<u32>; 3] {
    let entries = [
        (ip(10, 0, 0, 0), 8),
        (ip(10, 16, 0, 0), 12),
        (ip(10, 16, 32, 0), 20),
        (ip(10, 200, 0, 0), 13),
    ];
    let mut more = vec![(0, 0), (0, 3), (0, 9), (ip(9, 0, 0, 0), 9)];
    more.extend(entries);
    let empty = [
        (ip(10, 16, 0, 0), 15),
        (ip(10, 1, 0, 0), 32),
        (ip(200, 0, 0, 0), 6),
    ];
    [pool(&entries), untidy(&entries, &empty), pool(&more)]
}

/// Equal views: with empty nodes on one side, and with different values.
fn add_equal(list: &mut CaseList) {
    let [plain, with_empty, with_more] = &three_pools();
    for width in [32, 64] {
        for (root, at_root) in [(WHOLE, "0/0"), (at(10, 0, 0, 0, 8), "10/8")] {
            let (l, r) = (&view(plain, root), &view(with_empty, root));
            let name = format!("equality with empty nodes right at {at_root}, width {width}");
            list.equality(name, width, l, r);
            let name = format!("equality with empty nodes left at {at_root}, width {width}");
            list.equality(name, width, r, l);
            let more = &view(with_more, root);
            let name = format!("equality with other values at {at_root}, width {width}");
            list.equality(name, width, l, more);
        }
    }
    let alone = &view(&pool(&[(ip(10, 128, 0, 0), 9)]), WHOLE);
    let lower = &view(&A, at(10, 128, 0, 0, 9));
    list.equality("equality, values 0 and 2", 32, alone, lower);
    list.equality("equality, values 2 and 0", 32, lower, alone);
    let higher = &view(&A, at(10, 128, 0, 0, 10));
    list.equality("equality, root just below the entry", 32, alone, higher);
    let ten = at(10, 0, 0, 0, 8);
    let other = at(10, 0, 0, 0, 6);
    let name = "equality, other roots of the same entries";
    list.equality(name, 32, &view(plain, ten), &view(with_empty, other));
}

/// Views that differ in one prefix.
fn add_unequal(list: &mut CaseList) {
    let last = ip(10, 16, 32, 1);
    let pairs = [
        ("length only", pool(&[(last, 24)]), pool(&[(last, 23)])),
        (
            "last bit",
            pool(&[(last, 32)]),
            pool(&[(last ^ 1 << 32, 32)]),
        ),
        (
            "one more right",
            pool(&[(0, 0)]),
            pool(&[(0, 0), (last, 32)]),
        ),
        (
            "one more left",
            pool(&[(0, 0), (last, 32)]),
            pool(&[(0, 0)]),
        ),
        ("the whole only", pool(&[]), pool(&[(0, 0)])),
        ("child place", pool(&[(0, 5)]), pool(&[(1 << 59, 5)])),
        ("node or child", pool(&[(0, 4)]), pool(&[(0, 5)])),
    ];
    for (name, left, right) in &pairs {
        let (l, r) = (&view(left, WHOLE), &view(right, WHOLE));
        list.equality(format!("unequal: {name}"), 32, l, r);
        list.equality(format!("unequal: {name}, width 64"), 64, l, r);
    }
    let empty_left = untidy(&[(0, 0)], &[(0, 5)]);
    let full_right = pool(&[(0, 0), (0, 5)]);
    let (l, r) = (&view(&empty_left, WHOLE), &view(&full_right, WHOLE));
    list.equality("unequal: an empty child and a full one", 32, l, r);
    let moved = untidy(&[(0, 0)], &[(ip(80, 0, 0, 0), 5)]);
    let (l, r) = (&view(&empty_left, WHOLE), &view(&moved, WHOLE));
    list.equality("equal: empty children in other places", 32, l, r);
}

/// Empty views of several makes, at different roots.
fn add_empty_equal(list: &mut CaseList) {
    let absent = at(192, 0, 0, 0, 32);
    let views = [
        ("absent", view(&A, absent)),
        ("no entry in the node", view(&A, at(192, 0, 0, 0, 2))),
        ("no data", view(&pool(&[]), WHOLE)),
        ("chain without data", view(&chain(7, 0), at(0, 0, 0, 0, 12))),
        ("entry just above", view(&A, at(10, 128, 0, 0, 10))),
    ];
    for (left_name, left) in &views {
        for (right_name, right) in &views {
            let name = format!("equality of empty views: {left_name}, {right_name}");
            list.equality(name, 32, left, right);
        }
        let full = &view(&B, WHOLE);
        let name = format!("equality: {left_name}, and a full view");
        list.equality(name, 32, left, full);
    }
}

/// Chains of empty nodes and pools with empty nodes between.
fn add_tidies(list: &mut CaseList) {
    list.tidy_in_all_rooms("tidy of seven empty nodes", 32, &view(&chain(7, 0), WHOLE));
    list.roomy_tidy("13 empty nodes", 64, &view(&chain(13, 0), WHOLE), 4);
    list.roomy_tidy(
        "a chain with a last entry",
        32,
        &view(&chain(7, 0x40), WHOLE),
        0,
    );
    let deep = chain(13, 0x4000_0000);
    list.roomy_tidy("a long chain with a last entry", 64, &view(&deep, WHOLE), 0);
    let [plain, with_empty, with_more] = &three_pools();
    for width in [32, 64] {
        list.roomy_tidy(
            &format!("tidy already, {width}"),
            width,
            &view(plain, WHOLE),
            0,
        );
        for root in [WHOLE, at(10, 0, 0, 0, 8), at(10, 16, 0, 0, 14)] {
            let len = root.len;
            let name = format!("empty nodes between at /{len}, width {width}");
            list.roomy_tidy(&name, width, &view(with_empty, root), 5);
            let name = format!("more before at /{len}, width {width}");
            list.roomy_tidy(&name, width, &view(with_more, root), 5);
        }
    }
    let name = "tidy of empty nodes between";
    list.tidy_in_all_rooms(name, 32, &view(with_empty, WHOLE));
    list.tidy_in_all_rooms("tidy of many entries", 32, &view(&broad_left(), WHOLE));
}

/// A at several roots.
fn add_tidies_of_a(list: &mut CaseList) {
    let roots: [(&str, Root); 8] = [
        ("0/0", WHOLE),
        ("0/1", at(0, 0, 0, 0, 1)),
        ("128/1", at(128, 0, 0, 0, 1)),
        ("8/5", at(8, 0, 0, 0, 5)),
        ("10/8", at(10, 0, 0, 0, 8)),
        ("10.0/9", at(10, 0, 0, 0, 9)),
        ("10.128/10", at(10, 128, 0, 0, 10)),
        ("10.128.0.0/32", at(10, 128, 0, 0, 32)),
    ];
    for (name, root) in roots {
        for width in [32, 64] {
            let full = format!("A@{name}, width {width}");
            list.roomy_tidy(&full, width, &view(&A, root), 1);
        }
    }
    list.tidy_in_all_rooms("tidy A", 32, &view(&A, WHOLE));
    list.tidy_in_all_rooms("tidy B@10/8", 32, &view(&B, at(10, 0, 0, 0, 8)));
}

/// Empty views with very little room.
fn add_empty_tidies(list: &mut CaseList) {
    let empty = [
        ("A@192/2", view(&A, at(192, 0, 0, 0, 2))),
        ("an absent root", view(&A, at(192, 0, 0, 0, 32))),
        ("no data", view(&[0, 0, 1, 0], WHOLE)),
    ];
    for (name, view) in &empty {
        for words in 0..6 {
            let told = if words < 4 { ": refusal 6" } else { "" };
            let full = format!("tidy of {name} into {words} words{told}");
            list.tidy(full, 32, view, (words, 0));
        }
    }
}

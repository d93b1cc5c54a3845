//! The order of the refusals, and other widths.

use super::pools::{at, chain, A, B};
use super::{name_of, view, CaseList, WHOLE};
use crate::vectors::{View, OPERATIONS};
use crate::Root;

/// A root longer than both widths.
const LONG: Root = Root { key: 0, len: 65 };
/// A pool with fault 3 at node 1.
const BAD: [u32; 8] = [0, 0, 1, 0, 0, 0, 1, 0];
/// A pool with fault 8 at node 0.
const WORSE: [u32; 4] = [0, 0, 1, 1];

/// Adds them all.
pub fn add(list: &mut CaseList) {
    add_widths(list);
    let orders = pool_orders().into_iter().chain(root_orders());
    for (name, width, left, right) in orders {
        for operation in OPERATIONS {
            let full = format!("{}, {name}", name_of(operation));
            list.list(full, operation, width, (&left, &right), 7);
        }
        list.equality(format!("equality, {name}"), width, &left, &right);
    }
    add_room_orders(list);
    add_tidy_orders(list);
}

/// Other widths than 32 and 64, for all kinds, with nothing else wrong and with all wrong.
fn add_widths(list: &mut CaseList) {
    let (a, b) = (&view(&A, WHOLE), &view(&B, WHOLE));
    for width in [0, 31, 33, 63, 65, 128, 0xffff_ffff] {
        let name = format!("width {width}: refusal 1");
        list.check(format!("check, {name}"), width, &A);
        for operation in OPERATIONS {
            let full = format!("{}, {name}", name_of(operation));
            list.list(full, operation, width, (a, b), 31);
        }
        list.equality(format!("equality, {name}"), width, a, b);
        list.tidy(format!("tidy, {name}"), width, a, (9, 4));
    }
    list.check("check of no words, width 33: refusal 1", 33, &[]);
    list.check("check of a bad pool, width 0: refusal 1", 0, &BAD);
}

/// A width and two views; the name tells what is answered.
type Order = (&'static str, u32, View, View);

/// Bad pools together with other wrong things.
fn pool_orders() -> Vec<Order> {
    let (a, b) = (|| view(&A, WHOLE), || view(&B, WHOLE));
    let (bad, worse) = (|| view(&BAD, WHOLE), || view(&WORSE, WHOLE));
    let (long_bad, long_worse) = (|| view(&BAD, LONG), || view(&WORSE, LONG));
    let long_a = || view(&A, LONG);
    vec![
        ("all wrong: refusal 1", 33, long_bad(), long_worse()),
        ("left pool bad: refusal 2", 32, bad(), b()),
        ("right pool bad: refusal 3", 32, a(), bad()),
        ("both pools bad: refusal 2", 32, bad(), worse()),
        ("both bad, changed: refusal 2", 64, worse(), bad()),
        ("one bad pool twice: refusal 2", 32, bad(), bad()),
        ("all but width: refusal 2", 64, long_bad(), long_worse()),
        ("left all bad: refusal 2", 64, long_bad(), b()),
        ("left long, right bad: refusal 3", 32, long_a(), worse()),
        (
            "both long, right bad: refusal 3",
            64,
            long_a(),
            long_worse(),
        ),
    ]
}

/// Roots that are too long, pools of no words, and a node too deep for its data.
fn root_orders() -> Vec<Order> {
    let (a, b) = (|| view(&A, WHOLE), || view(&B, WHOLE));
    let (long_a, long_b) = (|| view(&A, LONG), || view(&B, LONG));
    let none = || view(&[], WHOLE);
    let deep = || view(&chain(7, 0x80), WHOLE);
    vec![
        ("both roots long: refusal 4", 32, long_a(), long_b()),
        ("left root long: refusal 4", 64, long_a(), b()),
        ("right root long: refusal 5", 64, a(), long_b()),
        ("no words left: refusal 2", 32, none(), b()),
        ("no words right: refusal 3", 32, a(), none()),
        ("no words twice: refusal 2", 64, none(), none()),
        ("left too deep: refusal 2", 32, deep(), b()),
        ("right too deep: refusal 3", 32, a(), deep()),
    ]
}

/// A root that is too long with no room either, and no room alone.
fn add_room_orders(list: &mut CaseList) {
    let (a, b) = (&view(&A, WHOLE), &view(&B, WHOLE));
    let (long_a, long_b) = (&view(&A, LONG), &view(&B, LONG));
    for operation in OPERATIONS {
        let name = name_of(operation);
        let full = format!("{name}, left root long, no words: refusal 4");
        list.list(full, operation, 64, (long_a, b), 0);
        let full = format!("{name}, right root long, no words: refusal 5");
        list.list(full, operation, 64, (a, long_b), 0);
        for words in [1, 5] {
            let full = format!("{name}, {words} words: refusal 6");
            list.list(full, operation, 64, (a, b), words);
        }
        let empty = &view(&A, at(192, 0, 0, 0, 2));
        let full = format!("{name}, two empty views, no words");
        list.list(full, operation, 32, (empty, empty), 0);
    }
}

/// Tidying with two things wrong at once.
fn add_tidy_orders(list: &mut CaseList) {
    let (a, bad) = (view(&A, WHOLE), view(&BAD, WHOLE));
    let (long_a, long_bad) = (view(&A, LONG), view(&BAD, LONG));
    let orders = [
        ("all wrong: refusal 1", 63, &long_bad, (0, 0)),
        ("bad pool: refusal 2", 32, &bad, (8, 8)),
        ("bad pool, long root: refusal 2", 32, &long_bad, (0, 0)),
        ("no words: refusal 2", 64, &view(&[], LONG), (0, 0)),
        ("long root: refusal 4", 64, &long_a, (8, 3)),
        ("long root, no room: refusal 4", 32, &long_a, (0, 0)),
        ("no room at all: refusal 6", 32, &a, (0, 0)),
        ("7 words, list too short: refusal 6", 32, &a, (7, 2)),
        ("7 words, list fits: refusal 6", 32, &a, (7, 3)),
        ("pool fits, 2 values: refusal 7", 32, &a, (8, 2)),
        ("pool fits, no values: refusal 7", 32, &a, (11, 0)),
        ("all fits", 32, &a, (8, 3)),
    ];
    for (name, width, view, room) in orders {
        list.tidy(format!("tidy, {name}"), width, view, room);
    }
}

//! The worked cases of the document, with several sizes of buffers.

use super::pools::{at, chain, A, B};
use super::{view, CaseList, WHOLE};
use crate::vectors::OPERATIONS;
use crate::Operation::{CoveringDifference, Difference, Intersection, Union};
use crate::Root;

/// Adds them all.
pub fn add(list: &mut CaseList) {
    add_lists(list);
    add_rooted_lists(list);
    add_equalities(list);
    add_tidies(list);
    add_checks(list);
}

/// The lists of A and B at 0/0.
fn add_lists(list: &mut CaseList) {
    let (a, b) = (&view(&A, WHOLE), &view(&B, WHOLE));
    list.list_in_all_rooms("union A, B", Union, 32, (a, b));
    list.list_in_all_rooms("intersection A, B", Intersection, 32, (a, b));
    list.list_in_all_rooms("difference A, B", Difference, 32, (a, b));
    list.list_in_all_rooms("difference B, A", Difference, 32, (b, a));
    list.list_in_all_rooms("covering difference A, B", CoveringDifference, 32, (a, b));
    list.list_in_all_rooms("covering difference B, A", CoveringDifference, 32, (b, a));
    let covering_union = OPERATIONS[4];
    list.list_in_all_rooms("covering union A, B", covering_union, 32, (a, b));
    list.list_in_all_rooms("covering union B, A", covering_union, 32, (b, a));
    list.list("union A, B with 29 words", Union, 32, (a, b), 29);
    list.list("union A, B with 35 words", Union, 32, (a, b), 35);
}

/// The covering differences at given roots.
fn add_rooted_lists(list: &mut CaseList) {
    let whole_b = &view(&B, WHOLE);
    let lower_a = &view(&A, at(10, 0, 0, 0, 8));
    let lower_b = &view(&B, at(10, 0, 0, 0, 9));
    let name = "covering difference B, A@10/8";
    list.list_in_all_rooms(name, CoveringDifference, 32, (whole_b, lower_a));
    let name = "covering difference B@10.0/9, A@10/8";
    list.list_in_all_rooms(name, CoveringDifference, 32, (lower_b, lower_a));
}

/// Equality at given roots.
fn add_equalities(list: &mut CaseList) {
    let lower = at(10, 128, 0, 0, 9);
    let (a, b) = (&view(&A, lower), &view(&B, lower));
    list.equality("equality A@10.128/9, B@10.128/9", 32, a, b);
    let a = &view(&A, at(192, 0, 0, 0, 2));
    let b = &view(&B, at(64, 0, 0, 0, 2));
    list.equality("equality A@192/2, B@64/2, both empty", 32, a, b);
    let (a, b) = (&view(&A, WHOLE), &view(&B, WHOLE));
    list.equality("equality A, B", 32, a, b);
}

/// The pool with an empty node, and A at two roots.
fn add_tidies(list: &mut CaseList) {
    let one_empty = [1, 2, 1, 0, 0, 0, 2, 1];
    let pools: [(&str, &[u32], Root); 3] = [
        ("tidy of a pool with an empty node", &one_empty, WHOLE),
        ("tidy A@10.128/9", &A, at(10, 128, 0, 0, 9)),
        ("tidy A@192/2", &A, at(192, 0, 0, 0, 2)),
    ];
    for (name, words, root) in pools {
        list.tidy_in_all_rooms(name, 32, &view(words, root));
    }
}

/// The checks of the document.
fn add_checks(list: &mut CaseList) {
    list.check("check of A", 32, &A);
    list.check("check of B", 32, &B);
    let one_empty = [1, 2, 1, 0, 0, 0, 2, 1];
    list.check("check of a pool with an empty node", 32, &one_empty);
    let twice = [0, 0, 1, 0, 0, 0, 1, 0];
    list.check("(0, 0, 1, 0) twice: fault 3 at node 1", 32, &twice);
    list.check("chain of seven, last data 0x40", 32, &chain(7, 0x40));
    let name = "chain of seven, last data 0x80: fault 4 at node 6";
    list.check(name, 32, &chain(7, 0x80));
    let name = "chain of seven, last data 0x80, width 64";
    list.check(name, 64, &chain(7, 0x80));
}

//! The comparison at work: it agrees, it notices, and its report can be followed.

use compare::{compare, random_cases, Case, Mutant, Proved, Reference, Rooms, Slip, View};

/// Lists A and B of the manual.
fn manual() -> Case {
    let left = vec![1, 2, 1, 0, 0x10_0200, 0, 2, 1];
    let right = vec![4, 2, 1, 0, 0x18_0000, 0, 2, 1];
    Case {
        family: "manual",
        width: 32,
        left: View::new(left, (0, 0)),
        right: View::new(right, (0, 0)),
        shared: false,
        rooms: Rooms::EXACT,
    }
}

#[test]
fn the_manual_and_some_random_cases_agree() {
    assert!(compare(&manual(), &Proved, &Reference).is_ok());
    for number in 0..500 {
        let case = random_cases::case(7, number);
        assert!(compare(&case, &Proved, &Reference).is_ok(), "{case}");
    }
}

#[test]
fn a_cover_of_length_0_is_not_overlooked() {
    assert!(compare(&manual(), &Proved, &Mutant(Slip::None)).is_ok());
    let found = compare(&manual(), &Proved, &Mutant(Slip::CoverLengthZero));
    let report = found
        .expect_err("128.0.0.0/1 has the cover 0.0.0.0/0")
        .to_string();
    for part in [
        "width: 32",
        "left root: 0x0000000000000000/0",
        "  0x100200, 0x0, 0x2, 0x1",
        "right pool, 8 words:",
        "call: List(CoveringUnion)",
        "lent words: 30 for records",
        "8000000000000000 1 2 0 0 0 ]",
        "8000000000000000 1 2 ffffffff 0 ff ]",
    ] {
        assert!(report.contains(part), "{part} is missing in:\n{report}");
    }
}

#[test]
fn a_case_is_the_same_again() {
    for number in 0..50 {
        assert_eq!(random_cases::case(3, number), random_cases::case(3, number));
    }
}

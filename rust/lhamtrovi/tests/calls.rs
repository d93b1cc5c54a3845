//! Every call through the safe functions, and every refusal as its type.

use lhamtrovi::{
    check, covering_difference, covering_union, difference, equal_keys, intersection, records,
    tidy, union, Cover, Record, Refusal, Root, Side, Unsound, View,
};

/// The manual's lists A and B.
const A: [u32; 8] = [1, 2, 1, 0, 0x100200, 0, 2, 1];
const B: [u32; 8] = [4, 2, 1, 0, 0x180000, 0, 2, 1];

/// A pool with a fault at node 1.
const BAD: [u32; 8] = [0, 0, 1, 0, 0, 0, 1, 0];

const fn whole(pool: &[u32]) -> View<'_> {
    View {
        pool,
        root: Root::WHOLE,
    }
}

const LONG: Root = Root { key: 0, len: 33 };

type List = fn(u32, View, View, &mut [u64]) -> Result<usize, Refusal>;

const LISTS: [List; 5] = [
    union,
    intersection,
    difference,
    covering_difference,
    covering_union,
];

/// The prefixes of a list as first byte and length.
fn networks(list: List, left: View, right: View) -> Vec<(u64, u32)> {
    let mut out = [7; 60];
    let count = list(32, left, right, &mut out).expect("it is not refused");
    assert!(out[6 * count..].iter().all(|&word| word == 7));
    records(&out, count).map(|r| (r.key >> 56, r.len)).collect()
}

#[test]
fn lists_are_those_of_the_manual() {
    let (a, b) = (whole(&A), whole(&B));
    assert_eq!(
        networks(union, a, b),
        [(0, 0), (10, 8), (10, 9), (10, 9), (128, 1)]
    );
    assert_eq!(networks(intersection, a, b), [(10, 9)]);
    assert_eq!(networks(difference, a, b), [(0, 0), (10, 8)]);
    assert_eq!(networks(covering_difference, b, a), []);
    assert_eq!(networks(covering_union, a, b).len(), 5);
}

#[test]
fn records_have_sides_values_and_covers() {
    let mut out = [0; 30];
    let count = covering_union(32, whole(&A), whole(&B), &mut out).expect("there is room");
    let found: Vec<Record> = records(&out, count).collect();
    assert_eq!(
        (found[1].side, found[1].left, found[1].right),
        (Side::Left, Some(1), None)
    );
    assert_eq!(found[1].cover, None);
    assert_eq!(
        (found[2].side, found[2].left, found[2].right),
        (Side::Right, None, Some(1))
    );
    assert_eq!(found[2].cover, Some(Cover { len: 8, value: 1 }));
    assert_eq!(
        (found[3].side, found[3].left, found[3].right),
        (Side::Both, Some(2), Some(2))
    );
    assert_eq!(found[4].cover, Some(Cover { len: 0, value: 0 }));
}

#[test]
fn every_refusal_has_its_type_and_changes_nothing() {
    for list in LISTS {
        let mut out = [7; 60];
        let mut refused = |width, left, right| {
            let refusal = list(width, left, right, &mut out).expect_err("it is refused");
            assert!(out.iter().all(|&word| word == 7));
            assert!(!refusal.to_string().is_empty());
            (refusal, refusal.number())
        };
        let long = View {
            pool: &A,
            root: LONG,
        };
        assert_eq!(refused(31, whole(&A), whole(&B)), (Refusal::Width, 1));
        assert_eq!(
            refused(32, whole(&BAD), whole(&BAD)),
            (Refusal::LeftPool { node: 1 }, 2)
        );
        assert_eq!(
            refused(32, long, whole(&BAD)),
            (Refusal::RightPool { node: 1 }, 3)
        );
        assert_eq!(refused(32, long, long), (Refusal::LeftRoot, 4));
        assert_eq!(refused(32, whole(&A), long), (Refusal::RightRoot, 5));
    }
    let mut small = [7; 29];
    let refusal = union(32, whole(&A), whole(&B), &mut small).expect_err("29 words hold 4 records");
    assert_eq!(
        (refusal, refusal.number()),
        (Refusal::Room { needed: 5 }, 6)
    );
    assert_eq!(small, [7; 29]);
}

#[test]
fn equality_and_tidying() {
    let part = View {
        pool: &A,
        root: Root {
            key: 0x0a80 << 48,
            len: 9,
        },
    };
    let other = View { pool: &B, ..part };
    assert_eq!(equal_keys(32, part, other), Ok(true));
    assert_eq!(equal_keys(32, whole(&A), whole(&B)), Ok(false));
    assert_eq!(equal_keys(0, part, other), Err(Refusal::Width));

    let (mut pool, mut values) = ([7; 9], [7; 2]);
    assert_eq!(tidy(32, part, &mut pool, &mut values), Ok(2));
    assert_eq!((pool, values), ([0, 2, 1, 0, 0x100000, 0, 2, 0, 7], [2, 7]));
    let (mut pool, mut values) = ([7; 7], [7; 0]);
    assert_eq!(
        tidy(32, part, &mut pool, &mut values),
        Err(Refusal::Room { needed: 2 })
    );
    let mut pool = [7; 8];
    let refusal = tidy(32, part, &mut pool, &mut values).expect_err("there is no room for a value");
    assert_eq!(
        (refusal, refusal.number()),
        (Refusal::ValueRoom { needed: 1 }, 7)
    );
    assert_eq!(pool, [7; 8]);
}

#[test]
fn check_tells_the_fault() {
    assert_eq!(check(32, &A), Ok(2));
    assert_eq!(check(33, &A), Err(Unsound::Width));
    assert_eq!(check(32, &BAD), Err(Unsound::Fault { number: 3, node: 1 }));
    assert_eq!(check(32, &[]), Err(Unsound::Fault { number: 1, node: 0 }));
    assert_eq!(
        Unsound::Fault { number: 3, node: 1 }.to_string(),
        "fault 3 at node 1"
    );
}

//! Well-formed pools and valid roots at both widths.

use samples::{crowded, near, pair, words, Random, Table};
use std::fmt;

/// Two views at a width.
#[derive(Clone, Debug, PartialEq, Eq)]
pub struct Case {
    /// 32 or 64.
    pub width: u32,
    /// The left pool.
    pub left: Vec<u32>,
    /// The left root's bits and length.
    pub left_root: (u64, u32),
    /// The right pool.
    pub right: Vec<u32>,
    /// The right root's bits and length.
    pub right_root: (u64, u32),
}

/// A root near the nodes of a table that is not longer than the width.
fn root(random: &mut Random, width: u32, table: &Table) -> (u64, u32) {
    let (key, len) = near(random, width, table);
    (key, len.min(width))
}

/// The right root: as the left one, a little shorter or longer, or near nodes of either table.
fn other_root(
    random: &mut Random,
    width: u32,
    tables: [&Table; 2],
    root_of_left: (u64, u32),
) -> (u64, u32) {
    let (key, len) = root_of_left;
    match random.below(6) {
        0 => (key, len),
        1 => (key, len.saturating_sub(1 + random.below(6) as u32)),
        2 => (key, (len + random.below(6) as u32).min(width)),
        3 => root(random, width, tables[0]),
        _ => root(random, width, tables[1]),
    }
}

/// The case of this number at this width.
pub fn case(width: u32, seed: u64, number: u64) -> Case {
    let random = &mut Random::of_case(seed ^ u64::from(width), number);
    let (left, right, in_node) = match random.once_in(4) {
        true => {
            let (left, right, (depth, key)) = crowded(random, width);
            let key = key | random.word() >> depth.min(63);
            (left, right, Some((depth, key)))
        }
        false => {
            let (left, right) = pair(random, width);
            (left, right, None)
        }
    };
    let left_root = match in_node {
        Some((depth, key)) => (key, (depth + random.below(5) as u32).min(width)),
        None => root(random, width, &left),
    };
    let right_root = other_root(random, width, [&left, &right], left_root);
    Case {
        width,
        left: words(&left),
        left_root,
        right: words(&right),
        right_root,
    }
}

/// The small cases of the comparison with the reference that are well-formed and have valid roots.
pub fn small() -> impl Iterator<Item = Case> {
    compare::small_cases::all().filter_map(|case| {
        let root = |root: lhamtrovi::Root| (root.key, root.len);
        let right = case.right_words().to_vec();
        let case = Case {
            width: case.width,
            left_root: root(case.left.root),
            left: case.left.words,
            right_root: root(case.right.root),
            right,
        };
        let lengths = case.left_root.1.max(case.right_root.1);
        let sound = |words: &[u32]| reference::check(case.width, words).number == 0;
        (sound(&case.left) && sound(&case.right) && lengths <= case.width).then_some(case)
    })
}

/// The cases of the stored sample: the first ones with small pools, at both widths.
pub fn sample() -> Vec<Case> {
    let of_width = |width| {
        let cases = (0..).map(move |number| case(width, 1, number));
        let entries = |words: &[u32]| words.iter().step_by(4).map(|word| word.count_ones()).sum();
        cases
            .filter(move |case| {
                [&case.left, &case.right]
                    .map(|side| entries(side))
                    .iter()
                    .all(|count: &u32| *count <= 12)
            })
            .take(150)
    };
    of_width(32).chain(of_width(64)).collect()
}

impl fmt::Display for Case {
    fn fmt(&self, f: &mut fmt::Formatter) -> fmt::Result {
        writeln!(f, "width {}", self.width)?;
        writeln!(
            f,
            "left {:#018x}/{} of {:x?}",
            self.left_root.0, self.left_root.1, self.left
        )?;
        writeln!(
            f,
            "right {:#018x}/{} of {:x?}",
            self.right_root.0, self.right_root.1, self.right
        )
    }
}

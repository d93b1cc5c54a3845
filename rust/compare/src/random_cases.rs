//! Random cases: any of them is made anew from the seed and its number.

use crate::case::{Case, Room, Rooms, View};
use samples::{crowded, damaged, garbage, large, long_length, near, pair, too_large, words};
use samples::{Random, Table, FAULTS};

/// Widths that are refused.
const OTHER_WIDTHS: [u32; 14] = [
    0,
    1,
    16,
    31,
    33,
    63,
    65,
    96,
    128,
    255,
    256 + 32,
    (1 << 16) + 64,
    1 << 31,
    u32::MAX,
];

/// A good width.
fn width(random: &mut Random) -> u32 {
    match random.once_in(2) {
        true => 32,
        false => 64,
    }
}

/// A buffer size around what is needed, for units of so many words.
fn room(random: &mut Random, unit: usize) -> Room {
    match random.below(12) {
        0 => Room::Words(0),
        1 => Room::Less(1),
        2 => Room::Less(1 + random.below(unit + 2)),
        3 => Room::Words(random.below(40)),
        4 | 5 => Room::More(1 + random.below(unit)),
        6 | 7 => Room::More(unit + random.below(20)),
        8 => Room::More(random.below(3000)),
        _ => Room::More(0),
    }
}

/// The sizes of all buffers.
fn rooms(random: &mut Random) -> Rooms {
    Rooms {
        records: room(random, 6),
        nodes: room(random, 4),
        values: room(random, 1),
    }
}

/// The roots of two views: the same, the right one a little shorter or longer, near the nodes of one table, or each near its own.
fn roots(random: &mut Random, width: u32, left: &Table, right: &Table) -> [(u64, u32); 2] {
    let left_root = near(random, width, left);
    let (key, len) = left_root;
    let right_root = match random.below(6) {
        0 => left_root,
        1 => near(random, width, left),
        2 => (key, len.saturating_sub(1 + random.below(6) as u32)),
        3 => (key, len.saturating_add(random.below(6) as u32).min(width)),
        _ => near(random, width, right),
    };
    [left_root, right_root]
}

/// A case of two well-formed pools.
fn well_formed(random: &mut Random) -> Case {
    let width = width(random);
    let (left, right) = pair(random, width);
    let [left_root, right_root] = roots(random, width, &left, &right);
    Case {
        family: "well-formed",
        width,
        left: View::new(words(&left), left_root),
        right: View::new(words(&right), right_root),
        shared: false,
        rooms: rooms(random),
    }
}

/// Both roots in one node with much data on both sides, or one of them above it.
fn roots_in_one_node(random: &mut Random) -> Case {
    let width = width(random);
    let (left, right, (depth, key)) = crowded(random, width);
    let key = key | (random.word() >> depth.min(63));
    let mut root = || match random.below(4) {
        0 => (key, depth.saturating_sub(random.below(8) as u32)),
        _ => (key, (depth + random.below(5) as u32).min(width)),
    };
    let (left_root, right_root) = (root(), root());
    Case {
        family: "roots in one node",
        width,
        left: View::new(words(&left), left_root),
        right: View::new(words(&right), right_root),
        shared: false,
        rooms: rooms(random),
    }
}

/// One pool, lent for both sides.
fn one_pool(random: &mut Random) -> Case {
    let mut case = well_formed(random);
    case.family = "one pool for both sides";
    case.right.words.clear();
    case.shared = true;
    case
}

/// Damage on one side or on both, for every fault and for none in particular.
fn damage(random: &mut Random) -> Case {
    let mut case = well_formed(random);
    case.family = "damaged";
    let fault = 1 + random.below(FAULTS + 1);
    let side = random.below(3);
    if side != 1 {
        case.left.words = damaged(random, &case.left.words, fault);
    }
    if side != 0 {
        let fault = 1 + random.below(FAULTS + 1);
        case.right.words = damaged(random, &case.right.words, fault);
    }
    case
}

/// Words that nobody made a pool of, on one side or on both.
fn no_pools(random: &mut Random) -> Case {
    let mut case = well_formed(random);
    case.family = "garbage";
    let side = random.below(3);
    if side != 1 {
        case.left.words = garbage(random);
    }
    if side != 0 {
        case.right.words = garbage(random);
    }
    case
}

/// Pools of 0 to 9 words, right and wrong ones.
fn few_words(random: &mut Random) -> Case {
    let mut case = well_formed(random);
    case.family = "few words";
    for view in [&mut case.left, &mut case.right] {
        let count = random.below(10);
        let good = [random.word() as u32 & 0x7fff_ffff, 1, 1, 0, 1, 0, 2, 0, 0];
        let values = good[0].count_ones();
        view.words = good[..count].to_vec();
        match count {
            4..8 => view.words[1] = random.below(2) as u32,
            8.. => view.words[7] = values,
            _ => {}
        }
    }
    case
}

/// A width that is refused, with pools good or bad.
fn other_width(random: &mut Random) -> Case {
    let mut case = match random.once_in(2) {
        true => well_formed(random),
        false => damage(random),
    };
    case.family = "other width";
    case.width = match random.below(8) {
        0 => random.word() as u32,
        _ => OTHER_WIDTHS[random.below(OTHER_WIDTHS.len())],
    };
    case
}

/// Roots above the width on one side or on both, the pools good or not.
fn long_roots(random: &mut Random) -> Case {
    let mut case = match random.once_in(3) {
        true => damage(random),
        false => well_formed(random),
    };
    case.family = "long roots";
    let side = random.below(3);
    if side != 1 {
        case.left.root.len = long_length(random, case.width);
    }
    if side != 0 {
        case.right.root.len = long_length(random, case.width);
    }
    case
}

/// Pools of some hundred entries.
fn larger(random: &mut Random) -> Case {
    let mut case = well_formed(random);
    case.family = "larger";
    let nodes = 20 + random.below(130);
    let left = large(random, case.width, nodes);
    let right = samples::varied(random, case.width, &left);
    let [left_root, right_root] = roots(random, case.width, &left, &right);
    case.left = View::new(words(&left), left_root);
    case.right = View::new(words(&right), right_root);
    case
}

/// A pool above the limit on one side.
fn above_limit(random: &mut Random) -> Case {
    let mut case = well_formed(random);
    case.family = "above the limit";
    match random.once_in(2) {
        true => case.left.words = too_large(random),
        false => case.right.words = too_large(random),
    }
    case
}

/// The case of this number.
pub fn case(seed: u64, number: u64) -> Case {
    let random = &mut Random::of_case(seed, number);
    match random.below(1000) {
        0..=449 => well_formed(random),
        450..=599 => roots_in_one_node(random),
        600..=679 => one_pool(random),
        680..=819 => damage(random),
        820..=869 => no_pools(random),
        870..=899 => few_words(random),
        900..=929 => other_width(random),
        930..=969 => long_roots(random),
        970..=998 => larger(random),
        _ => match random.once_in(10) {
            true => above_limit(random),
            false => one_pool(random),
        },
    }
}

//! Small cases, all of their kind: around the borders of nodes, all short roots, all single data bits, all tiny pools, all lengths and widths, and a few very large pools.

use crate::case::{Case, Room, Rooms, View};
use samples::{large, varied, words, Random, Table};

/// A prefix: its bits and its length.
type Prefix = (u64, u32);

/// Alternating bits, on which the small pools lie.
const PATH: u64 = 0x5a5a_5a5a_5a5a_5a5a;
/// Where nodes end: the width and the length at which the next node starts or would start.
const BORDERS: [(u32, u32); 8] = [
    (32, 5),
    (32, 10),
    (32, 30),
    (32, 32),
    (64, 5),
    (64, 30),
    (64, 60),
    (64, 64),
];

/// A word whose first bits are ones.
fn mask(len: u32) -> u64 {
    u64::MAX.checked_shl(64 - len).unwrap_or(0)
}

/// The path cut after this length.
fn on_path(len: u32) -> Prefix {
    (PATH & mask(len), len)
}

/// The same with its last bit turned.
fn beside(len: u32) -> Prefix {
    (on_path(len).0 ^ 1 << (64 - len), len)
}

/// The pool of these prefixes.
fn pool(prefixes: &[Prefix]) -> Vec<u32> {
    let mut table = Table::from([((0, 0), 0)]);
    for &(key, len) in prefixes {
        pools::add_prefix(&mut table, key, len);
    }
    words(&table)
}

/// All choices of some of these prefixes.
fn subsets(prefixes: &[Prefix]) -> Vec<Vec<Prefix>> {
    let chosen = |set: u32| -> Vec<Prefix> {
        let places = (0..prefixes.len()).filter(|place| set >> place & 1 == 1);
        places.map(|place| prefixes[place]).collect()
    };
    (0..1 << prefixes.len()).map(chosen).collect()
}

/// A case of two good pools with buffers that fit and have a tail.
fn fitting(family: &'static str, width: u32, left: View, right: View) -> Case {
    let room = Room::More(3);
    Case {
        family,
        width,
        left,
        right,
        shared: false,
        rooms: Rooms {
            records: room,
            nodes: room,
            values: room,
        },
    }
}

/// All pairs of sets of prefixes around a border, with all pairs of roots around it.
fn around_border(&(width, border): &(u32, u32)) -> impl Iterator<Item = Case> {
    let last = border.min(width - 1);
    let prefixes = [
        on_path(last - 1),
        on_path(last),
        beside(last),
        on_path(last + 1),
        beside(last + 1),
    ];
    let roots = [
        (0, 0),
        on_path(last - 1),
        on_path(last),
        beside(last),
        on_path(last + 1),
    ];
    let pools: Vec<Vec<u32>> = subsets(&prefixes).iter().map(|set| pool(set)).collect();
    let count = pools.len() * pools.len() * roots.len() * roots.len();
    (0..count).map(move |number| {
        let (left, rest) = (number % pools.len(), number / pools.len());
        let (right, rest) = (rest % pools.len(), rest / pools.len());
        let (left_root, right_root) = (roots[rest % roots.len()], roots[rest / roots.len()]);
        let left = View::new(pools[left].clone(), left_root);
        let right = View::new(pools[right].clone(), right_root);
        fitting("around a border", width, left, right)
    })
}

/// All prefixes of length 0 to 10.
fn short_prefixes() -> impl Iterator<Item = Prefix> {
    (0..11u32).flat_map(|len| {
        let keys = (0..1u64 << len).map(move |bits| bits.checked_shl(64 - len).unwrap_or(0));
        keys.map(move |key| (key, len))
    })
}

/// All roots of length 0 to 10 on one side, and some on the other, over two pools and over the two changed round.
fn short_roots() -> impl Iterator<Item = Case> {
    let near_left = [on_path(4), on_path(5), beside(5), on_path(9), beside(10)];
    let near_right = [on_path(3), on_path(5), on_path(6), beside(9), on_path(12)];
    let left = pool(&[&near_left[..], &[(0, 0), on_path(11)]].concat());
    let right = pool(&[&near_right[..], &[on_path(10)]].concat());
    short_prefixes().flat_map(move |root| {
        let pools = [(left.clone(), right.clone()), (right.clone(), left.clone())];
        let others = [
            (0, 0),
            on_path(4),
            on_path(5),
            on_path(6),
            on_path(10),
            root,
        ];
        (0..2 * others.len()).map(move |number| {
            let (one, two) = pools[number % 2].clone();
            let two = View::new(two, others[number / 2]);
            fitting("all short roots", 32, View::new(one, root), two)
        })
    })
}

/// One data bit on each side, in the root's node or in a child.
fn single_bits() -> impl Iterator<Item = Case> {
    let pool = |bit: u32, deep: bool| match deep {
        false => vec![1 << bit, 0, 1, 0],
        true => vec![0, 1 << 11, 1, 0, 1 << bit, 0, 2, 0],
    };
    (0..31 * 31 * 4).map(move |number: u32| {
        let (left, right) = (number % 31, number / 31 % 31);
        let (left_deep, right_deep) = (number / 961 % 2 == 1, number / 1922 == 1);
        let left = View::new(pool(left, left_deep), (0, 0));
        let right = View::new(pool(right, right_deep), (0, 0));
        fitting("single data bits", 64, left, right)
    })
}

/// All pools of two nodes of a few values for each word, well-formed and not.
fn tiny_pools() -> impl Iterator<Item = Case> {
    let data = [0, 1, 0x4000_0000, 0x8000_0000u32];
    let child = [0, 1, 3, 0x8000_0000u32];
    let first_child = [0, 1, 2, u32::MAX];
    let first_value = [0, 1, u32::MAX];
    let node = move |number: usize| {
        [
            data[number % 4],
            child[number / 4 % 4],
            first_child[number / 16 % 4],
            first_value[number / 64],
        ]
    };
    (0..192 * 192).map(move |number| {
        let both = [node(number % 192), node(number / 192)].concat();
        let one = node(number % 192).to_vec();
        let (left, right) = (View::new(both, (0, 0)), View::new(one, (0, 0)));
        fitting("tiny pools", 32, left, right)
    })
}

/// All lengths of roots around both widths at widths good and bad.
fn lengths_and_widths() -> impl Iterator<Item = Case> {
    let widths = [0, 31, 32, 33, 63, 64, 65, u32::MAX];
    let lengths: Vec<u32> = (0..70).chain([255, 256, 288, 1 << 31, u32::MAX]).collect();
    let words = pool(&[
        (0, 0),
        on_path(1),
        on_path(5),
        on_path(9),
        on_path(31),
        on_path(32),
    ]);
    let pools = [words, vec![0, 0, 1, 0], vec![], vec![1, 0, 0, 0]];
    let count = widths.len() * lengths.len() * pools.len() * pools.len();
    (0..count).map(move |number| {
        let (width, rest) = (widths[number % 8], number / 8);
        let (length, rest) = (lengths[rest % lengths.len()], rest / lengths.len());
        let (left, right) = (&pools[rest % 4], &pools[rest / 4]);
        let left = View::new(left.clone(), (PATH, length));
        let right = View::new(right.clone(), (PATH, length / 2));
        let mut case = fitting("lengths and widths", width, left, right);
        if number % 3 == 0 {
            std::mem::swap(&mut case.left.root, &mut case.right.root);
        }
        case
    })
}

/// Pools of thousands of nodes up to the limit, and above it.
fn large_pools() -> impl Iterator<Item = Case> {
    let sizes = [
        (32, 3_000),
        (64, 3_000),
        (32, 65_536),
        (64, 65_536),
        (64, 65_537),
    ];
    sizes.into_iter().map(|(width, nodes)| {
        let random = &mut Random::new(nodes as u64);
        let left = large(random, width, nodes);
        let right = varied(random, width, &left);
        let left = View::new(words(&left), (0, 0));
        let right = View::new(words(&right), (0, 0));
        fitting("large pools", width, left, right)
    })
}

/// All small cases, always in the same order.
pub fn all() -> impl Iterator<Item = Case> {
    let borders = BORDERS.iter().flat_map(around_border);
    borders
        .chain(short_roots())
        .chain(single_bits())
        .chain(tiny_pools())
        .chain(lengths_and_widths())
        .chain(large_pools())
}

//! Random pools, roots and damage from a fixed seed.

use super::{exact_tidy, exact_words, name_of, view, CaseList, WHOLE};
use crate::pool::{last_depth, may_hold, STEP};
use crate::prefix::{mask, Root};
use crate::tidy::{words, Place, Table};
use crate::vectors::{View, OPERATIONS};

/// A small xorshift generator.
pub struct Random(u64);

impl Random {
    /// A generator with this seed, which may not be 0.
    pub fn new(seed: u64) -> Random {
        Random(seed)
    }

    /// The next word.
    pub fn word(&mut self) -> u64 {
        self.0 ^= self.0 << 13;
        self.0 ^= self.0 >> 7;
        self.0 ^= self.0 << 17;
        self.0
    }

    /// A number below `end`, which may not be 0.
    pub fn below(&mut self, end: usize) -> usize {
        ((self.word() >> 20) % end as u64) as usize
    }

    /// True once in `times`.
    pub fn once_in(&mut self, times: usize) -> bool {
        self.below(times) == 0
    }
}

/// Adds the random cases.
pub fn add(list: &mut CaseList) {
    let mut random = Random::new(0x5eed_0001_2357_1113);
    for round in 0..13 {
        for width in [32, 64] {
            add_lists(list, &mut random, width, round);
            add_equality(list, &mut random, width, round);
            add_tidy(list, &mut random, width, round);
            let words = words(&table(&mut random, width));
            let name = format!("random {round}, width {width}: check");
            list.check(name, width, &words);
        }
    }
    for round in 0..12 {
        add_damaged(list, &mut random, round);
        add_garbage(list, &mut random, round);
    }
}

/// Any place of a table.
fn any_place(random: &mut Random, table: &Table) -> Place {
    let number = random.below(table.len());
    *table.keys().nth(number).unwrap_or(&Place::ROOT)
}

/// Adds a random child below a place, if the depth allows one.
fn add_child(random: &mut Random, width: u32, table: &mut Table, place: Place) -> Place {
    if place.depth >= last_depth(width) {
        return place;
    }
    let child = place.prefix().extend(STEP, random.below(32) as u32);
    let data = some_data(random, width, child.len);
    let place = Place::of(child);
    table.entry(place).or_insert(data);
    place
}

/// A data bitmap for this depth: none, one bit, some bits, or seldom all.
fn some_data(random: &mut Random, width: u32, depth: u32) -> u32 {
    let word = random.word() as u32;
    let wanted = match random.below(20) {
        0..=4 => 0,
        5..=12 => 1 << random.below(31),
        13..=16 => 1 << random.below(7) | 1 << random.below(31),
        17..=18 => word & random.word() as u32 & random.word() as u32,
        _ => u32::MAX,
    };
    let allowed = (0..31).filter(|&bit| may_hold(width, depth, bit));
    wanted & allowed.map(|bit| 1 << bit).sum::<u32>()
}

/// A random table of at most 14 nodes: spread, or with a chain to the last depth.
pub fn table(random: &mut Random, width: u32) -> Table {
    let mut table = Table::from([(Place::ROOT, some_data(random, width, 0))]);
    let mut place = Place::ROOT;
    if random.once_in(4) {
        while place.depth < last_depth(width) {
            place = add_child(random, width, &mut table, place);
        }
    }
    let nodes = 1 + random.below(12);
    for _ in table.len()..nodes.max(table.len() + 1) {
        let parent = if random.once_in(2) {
            place
        } else {
            any_place(random, &table)
        };
        place = add_child(random, width, &mut table, parent);
    }
    table
}

/// The same table with some bits changed and some nodes more or fewer.
fn varied(random: &mut Random, width: u32, table: &Table) -> Table {
    let mut other = table.clone();
    for (place, data) in &mut other {
        let bit = random.below(31) as u32;
        if random.once_in(3) && may_hold(width, place.depth, bit) {
            *data ^= 1 << bit;
        }
        if random.once_in(12) {
            *data = 0;
        }
    }
    for _ in 0..random.below(3) {
        let parent = any_place(random, &other);
        add_child(random, width, &mut other, parent);
    }
    if random.once_in(2) {
        let gone = any_place(random, &other).prefix();
        other.retain(|place, _| place.depth == 0 || !gone.leads(place.prefix()));
    }
    other
}

/// Two tables, mostly alike.
pub fn pair(random: &mut Random, width: u32) -> (Table, Table) {
    let left = table(random, width);
    let right = match random.below(8) {
        0 => left.clone(),
        1 => table(random, width),
        _ => varied(random, width, &left),
    };
    (left, right)
}

/// A root near a node of the table: often 0/0, often above the node, else in it or beside it.
fn root_near(random: &mut Random, width: u32, table: &Table) -> Root {
    let place = any_place(random, table);
    let (start, low) = match random.below(6) {
        0 | 1 => return WHOLE,
        2 | 3 => (place.depth.saturating_sub(6), 0),
        _ => (place.depth, random.word() & !mask(place.depth)),
    };
    let len = (start + random.below(7) as u32).min(width);
    let mut key = place.key | low;
    if !random.once_in(3) {
        key &= mask(len);
    }
    if random.once_in(12) {
        key ^= 1 << (63 - random.below(32));
    }
    let extra = if random.once_in(40) { width } else { 0 };
    Root {
        key,
        len: len + extra,
    }
}

/// A random pair of views.
fn views(random: &mut Random, width: u32) -> (View, View) {
    let (left, right) = pair(random, width);
    let left_root = root_near(random, width, &left);
    let right_root = match random.below(3) {
        0 => left_root,
        1 => root_near(random, width, &left),
        _ => root_near(random, width, &right),
    };
    let left = view(&words(&left), left_root);
    (left, view(&words(&right), right_root))
}

/// A size around the exact one, mostly enough.
fn about(random: &mut Random, exact: usize) -> usize {
    match random.below(8) {
        0 => exact.saturating_sub(1),
        1 => exact + random.below(14),
        _ => exact,
    }
}

/// More output words than this make the file too long.
const MOST_WORDS: usize = 216;

/// The five lists of a new pair of views each; a pair with a longer list is drawn anew.
fn add_lists(list: &mut CaseList, random: &mut Random, width: u32, round: usize) {
    for operation in OPERATIONS {
        let (left, right, exact) = loop {
            let (left, right) = views(random, width);
            let exact = exact_words(operation, width, &left, &right);
            if exact <= MOST_WORDS {
                break (left, right, exact);
            }
        };
        let words = about(random, exact);
        let name = format!("random {round}, width {width}: {}", name_of(operation));
        list.list(name, operation, width, (&left, &right), words);
    }
}

/// Key equality of a pair of views.
fn add_equality(list: &mut CaseList, random: &mut Random, width: u32, round: usize) {
    let (left, right) = &views(random, width);
    let name = format!("random {round}, width {width}: equality");
    list.equality(name, width, left, right);
}

/// Tidying of a view.
fn add_tidy(list: &mut CaseList, random: &mut Random, width: u32, round: usize) {
    let (view, _) = &views(random, width);
    let (words, values) = exact_tidy(width, view);
    let room = (about(random, words), about(random, values));
    let name = format!("random {round}, width {width}: tidy");
    list.tidy(name, width, view, room);
}

/// Damages some words: a bit turned, a word changed, words gone or doubled, two words changed round.
fn damage(random: &mut Random, words: &mut Vec<u32>) {
    let place = random.below(words.len());
    let other = random.below(words.len());
    match random.below(6) {
        0 => words[place] ^= 1 << random.below(32),
        1 => words[place] = random.word() as u32,
        2 => words[place] = words[place].wrapping_add(1),
        3 => words.truncate(place),
        4 => words.extend_from_within(place / 4 * 4..),
        _ => words.swap(place, other),
    }
}

/// Damaged pools: the check, and one call each with the damage left, right and for tidying.
fn add_damaged(list: &mut CaseList, random: &mut Random, round: usize) {
    let width = if random.once_in(2) { 32 } else { 64 };
    let (good, mut bad) = views(random, width);
    damage(random, &mut bad.words);
    list.check(format!("damaged {round}: check"), width, &bad.words);
    let operation = OPERATIONS[round % OPERATIONS.len()];
    let name = format!("damaged {round} left: {}", name_of(operation));
    let words = exact_words(operation, width, &bad, &good).max(9);
    list.list(name, operation, width, (&bad, &good), words);
    let name = format!("damaged {round} right: {}", name_of(operation));
    let words = exact_words(operation, width, &good, &bad).max(9);
    list.list(name, operation, width, (&good, &bad), words);
    list.tidy(format!("damaged {round}: tidy"), width, &bad, (16, 9));
    let name = format!("damaged {round}: equality");
    list.equality(name, width, &good, &bad);
}

/// Garbage words: small numbers after a good root, so that some nodes are right, or any words.
fn add_garbage(list: &mut CaseList, random: &mut Random, round: usize) {
    let width = if random.once_in(2) { 32 } else { 64 };
    let count = random.below(6) * 4 + usize::from(random.once_in(4));
    let small = random.once_in(2);
    let mut word = || {
        let word = random.word();
        if small {
            (word >> 30) as u32 % 3
        } else {
            word as u32
        }
    };
    let mut words: Vec<u32> = (0..count).map(|_| word()).collect();
    if small && count >= 4 {
        words[1..4].copy_from_slice(&[1, 1, 0]);
    }
    list.check(format!("garbage {round}: check"), width, &words);
}

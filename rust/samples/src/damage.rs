//! Pools that are not well-formed.

use crate::random::Random;

/// The largest fault number that `damaged` takes; the one after it stands for any damage.
pub const FAULTS: usize = 8;
/// A pool may have so many nodes.
const MOST_NODES: usize = 65_536;

/// The words of an empty node that fits after these.
fn next_node(words: &[u32]) -> [u32; 4] {
    let bits = |place: usize| -> u32 {
        let of_node = words.iter().skip(place).step_by(4);
        of_node.map(|word| word.count_ones()).sum()
    };
    [0, 0, 1 + bits(1), bits(0)]
}

/// A wrong number for a right one: one off, or anything.
fn wrong(random: &mut Random, right: u32) -> u32 {
    match random.below(6) {
        0 | 1 => right.wrapping_add(1),
        2 | 3 => right.wrapping_sub(1),
        4 => u32::MAX,
        _ => random.word() as u32,
    }
}

/// Makes the word count 0 or no multiple of 4.
fn break_count(random: &mut Random, words: &mut Vec<u32>) {
    match random.below(4) {
        0 => words.clear(),
        1 => words.extend(vec![0; 1 + random.below(3)]),
        _ => words.truncate(words.len() - 1 - random.below(3)),
    }
}

/// Changes any word, order or count.
fn break_anything(random: &mut Random, words: &mut Vec<u32>) {
    let place = random.below(words.len());
    let other = random.below(words.len());
    match random.below(6) {
        0 => words[place] ^= 1 << random.below(32),
        1 => words[place] = random.word() as u32,
        2 => words[place] = wrong(random, words[place]),
        3 => words.truncate(place),
        4 => words.extend_from_within(place / 4 * 4..),
        _ => words.swap(place, other),
    }
}

/// A good pool damaged where a fault of this number looks; the pool may get another one first, or none.
pub fn damaged(random: &mut Random, words: &[u32], fault: usize) -> Vec<u32> {
    let mut words = words.to_vec();
    let last = words.len() / 4 * 4 - 4;
    let any = random.below(words.len() / 4) * 4;
    let node = if random.once_in(2) { last } else { any };
    match fault {
        1 => break_count(random, &mut words),
        3 => {
            let more = next_node(&words);
            words.extend(more);
        }
        4 if random.once_in(2) => words[node] |= 1 << 31,
        4 => words[node] |= 1 << random.below(32),
        5 => words[node + 1] |= 1 << random.below(32),
        6 => words[node + 2] = wrong(random, words[node + 2]),
        7 if random.once_in(2) => words.truncate(last),
        7 => words[last + 1] |= random.word() as u32,
        8 => words[node + 3] = wrong(random, words[node + 3]),
        _ => break_anything(random, &mut words),
    }
    words
}

/// Words that nobody made a pool of: small numbers after a good root, or anything.
pub fn garbage(random: &mut Random) -> Vec<u32> {
    let count = random.below(7) * 4 + random.below(4) * usize::from(random.once_in(4));
    let small = random.once_in(2);
    let mut words: Vec<u32> = (0..count)
        .map(|_| match small {
            true => random.below(3) as u32,
            false => random.word() as u32,
        })
        .collect();
    if small && count >= 4 {
        words[1..4].copy_from_slice(&[1, 1, 0]);
    }
    words
}

/// A pool with more nodes than a pool may have, and sometimes stray words after them.
pub fn too_large(random: &mut Random) -> Vec<u32> {
    let stray = random.below(4);
    vec![0; (MOST_NODES + 1) * 4 + stray]
}

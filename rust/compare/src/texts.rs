//! Random inputs of the text program, good ones and bad ones of many kinds.

use samples::{damaged, large, near, pair, words, Random, Table, FAULTS};
use std::fmt::Write;

const OPERATIONS: [&str; 6] = [
    "union",
    "intersection",
    "difference",
    "covering-difference",
    "covering-union",
    "equality",
];
/// Fields that are wrong somewhere, or right only in another place.
const FIELDS: [&str; 22] = [
    "",
    "0",
    "00",
    "08",
    "+8",
    "-1",
    "8 ",
    " 8",
    "255",
    "256",
    "999",
    "4294967304",
    "0x8",
    "3a",
    "W",
    "l",
    "r",
    "union",
    "Union",
    "0A00000000000000",
    "000000000",
    "99999999999999999999999",
];
/// Bytes that mean something, or nearly.
const BYTES: [u8; 16] = *b"\t\n\r lrLRWO09afAF";
/// A longer input is refused.
const MOST_BYTES: usize = 65_536;

/// One l or r line for each node.
fn node_lines(text: &mut String, letter: char, words: &[u32]) {
    for node in words.chunks_exact(4) {
        let (data, child) = (node[0], node[1]);
        writeln!(text, "{letter}\t{data:08x}\t{child:08x}").expect("a string takes it");
    }
}

/// A request with these pools and roots near their nodes.
fn request(random: &mut Random, width: u32, left: &Table, right: &Table) -> String {
    let said = match random.below(20) {
        0 => random.below(256) as u32,
        _ => width,
    };
    let operation = OPERATIONS[random.below(OPERATIONS.len())];
    let mut text = format!("W\t{said}\nO\t{operation}\n");
    for (letter, table) in [('L', left), ('R', right)] {
        let (key, len) = near(random, width, table);
        let len = len.min(255);
        writeln!(text, "{letter}\t{key:016x}\t{len}").expect("a string takes it");
    }
    text
}

/// A request whose pools are good, or damaged as far as its lines can say it.
fn small(random: &mut Random) -> String {
    let width = 32 << random.below(2);
    let (left, right) = pair(random, width);
    let mut text = request(random, width, &left, &right);
    for (letter, table) in [('l', &left), ('r', &right)] {
        let mut words = words(table);
        if random.once_in(8) {
            let fault = 1 + random.below(FAULTS + 1);
            words = damaged(random, &words, fault);
        }
        node_lines(&mut text, letter, &words);
    }
    text
}

/// A request about a pool of exactly so many entries, all in children of the root, so that the list has about 512 records.
fn of_records(random: &mut Random) -> String {
    let mut missing = 510 + random.below(5) as u32;
    let mut table = Table::from([((0, 0), 0)]);
    for child in 0..32u64 {
        let bits = missing.min(16 + random.below(16) as u32).min(31);
        let data = ((1u64 << bits) - 1) as u32;
        table.insert((5, child << 59), data);
        missing -= bits;
    }
    table.insert((0, 0), ((1u64 << missing.min(31)) - 1) as u32);
    let mut text = format!("W\t64\nO\t{}\n", OPERATIONS[random.below(5)]);
    text.push_str("L\t0000000000000000\t0\nR\t0000000000000000\t0\n");
    node_lines(&mut text, 'l', &words(&table));
    node_lines(&mut text, 'r', &[0, 0, 1, 0]);
    text
}

/// A request with 1,023 to 1,026 node lines on a side.
fn of_nodes(random: &mut Random) -> String {
    let width = 32 << random.below(2);
    let nodes = 1_023 + random.below(4);
    let table = large(random, width, nodes);
    let other = pair(random, width).0;
    let mut text = request(random, width, &table, &other);
    match random.once_in(2) {
        true => {
            node_lines(&mut text, 'l', &words(&table));
            node_lines(&mut text, 'r', &words(&other));
        }
        false => {
            node_lines(&mut text, 'l', &words(&other));
            node_lines(&mut text, 'r', &words(&table));
        }
    }
    text
}

/// A request with bytes after it up to about the limit.
fn of_bytes(random: &mut Random) -> Vec<u8> {
    let mut bytes = small(random).into_bytes();
    let size = MOST_BYTES - 2 + random.below(4);
    let filling = BYTES[random.below(BYTES.len())];
    if random.once_in(3) {
        bytes.clear();
    }
    bytes.resize(size, filling);
    bytes
}

/// Changes a field of a line.
fn change_field(random: &mut Random, lines: &mut [String]) {
    let place = random.below(lines.len().min(7));
    let mut fields: Vec<&str> = lines[place].split('\t').collect();
    let field = FIELDS[random.below(FIELDS.len())];
    let number = random.below(fields.len());
    match random.below(4) {
        0 => fields.insert(number, field),
        1 => drop(fields.remove(number)),
        _ => fields[number] = field,
    }
    lines[place] = fields.join("\t");
}

/// Changes, doubles, drops or moves a line; a text may lose its last line feed.
fn change_lines(random: &mut Random, text: &str) -> Vec<u8> {
    let mut lines: Vec<String> = text.lines().map(str::to_string).collect();
    let (one, other) = (random.below(lines.len()), random.below(lines.len()));
    match random.below(10) {
        0 => lines.insert(one, String::new()),
        1 => lines.swap(one, other),
        2 => lines.truncate(one),
        3 => drop(lines.remove(one)),
        4 => lines.insert(one, lines[other].clone()),
        5 => lines[one].push('\r'),
        _ => change_field(random, &mut lines),
    }
    let mut text = lines.join("\n");
    if !random.once_in(8) && !lines.is_empty() {
        text.push('\n');
    }
    text.into_bytes()
}

/// Changes, drops or adds a byte, or cuts the text off.
fn change_bytes(random: &mut Random, text: &str) -> Vec<u8> {
    let mut bytes = text.as_bytes().to_vec();
    let place = random.below(bytes.len().min(120));
    let byte = match random.once_in(4) {
        true => random.word() as u8,
        false => BYTES[random.below(BYTES.len())],
    };
    match random.below(5) {
        0 => drop(bytes.remove(place)),
        1 => bytes.insert(place, byte),
        2 => bytes.truncate(random.below(bytes.len())),
        3 => bytes.push(byte),
        _ => bytes[place] = byte,
    }
    bytes
}

/// The input of this number.
pub fn text(seed: u64, number: u64) -> Vec<u8> {
    let random = &mut Random::of_case(!seed, number);
    match random.below(100) {
        0..=49 => small(random).into_bytes(),
        50..=69 => {
            let text = small(random);
            change_lines(random, &text)
        }
        70..=93 => {
            let text = small(random);
            change_bytes(random, &text)
        }
        94 | 95 => of_records(random).into_bytes(),
        96 | 97 => of_nodes(random).into_bytes(),
        98 => of_bytes(random),
        _ => (0..random.below(60))
            .map(|_| BYTES[random.below(16)])
            .collect(),
    }
}

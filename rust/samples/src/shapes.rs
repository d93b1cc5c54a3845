//! Small tables of many shapes, and pairs of tables that share much.

use crate::random::Random;
use crate::tables::{last_depth, some_data, usable, varied};
use pools::{add_node, Table};

/// A node's depth and bits.
pub type Node = (u32, u64);

/// The node below this one on the way that these 5 bits name.
fn below((depth, key): Node, bits: u64) -> Node {
    (depth + 5, key | bits << 59 >> depth)
}

/// Any node of the table.
pub(crate) fn any_node(random: &mut Random, table: &Table) -> Node {
    let number = random.below(table.len());
    *table.keys().nth(number).unwrap_or(&(0, 0))
}

/// Adds a child below a node, if the depth allows one, and answers it.
fn add_child(random: &mut Random, width: u32, table: &mut Table, node: Node) -> Node {
    if node.0 >= last_depth(width) {
        return node;
    }
    let bits = match random.below(4) {
        0 => 0,
        1 => 31,
        _ => random.below(32) as u64,
    };
    let child = below(node, bits);
    let data = some_data(random, width, child.0);
    table.entry(child).or_insert(data);
    child
}

/// A table whose nodes go down one below the other to the last depth.
pub fn chain(random: &mut Random, width: u32) -> Table {
    let mut table = Table::from([((0, 0), some_data(random, width, 0))]);
    let mut node = (0, 0);
    while node.0 < last_depth(width) {
        node = add_child(random, width, &mut table, node);
    }
    table
}

/// Adds up to so many nodes, each below the one before it or below any other.
fn spread(random: &mut Random, width: u32, table: &mut Table, most: usize) {
    let mut node = any_node(random, table);
    for _ in 0..random.below(most) {
        if random.once_in(2) {
            node = any_node(random, table);
        }
        node = add_child(random, width, table, node);
    }
}

/// Gives a node all the data its depth allows, and sometimes all 32 children.
fn fill(random: &mut Random, width: u32, table: &mut Table) {
    let node = any_node(random, table);
    table.insert(node, usable(width, node.0));
    if node.0 < last_depth(width) && random.once_in(3) {
        for bits in 0..32 {
            let child = below(node, bits);
            let data = some_data(random, width, child.0);
            table.entry(child).or_insert(data);
        }
    }
}

/// Keeps only data at the two ends of a node: its own prefix, and the longest ones.
fn keep_borders(table: &mut Table) {
    for data in table.values_mut() {
        *data &= 0x7fff_8001;
    }
}

/// A small table: a lone root, a spread, a chain, full nodes, empty nodes, or data at the nodes' borders only.
pub fn small(random: &mut Random, width: u32) -> Table {
    let kind = random.below(10);
    let mut table = match kind {
        0..=2 => chain(random, width),
        _ => Table::from([((0, 0), some_data(random, width, 0))]),
    };
    match kind {
        0 | 3 => {}
        1 | 4 => spread(random, width, &mut table, 4),
        _ => spread(random, width, &mut table, 12),
    }
    match kind {
        7 => fill(random, width, &mut table),
        8 => table.values_mut().for_each(|data| *data &= 1),
        9 => keep_borders(&mut table),
        _ => {}
    }
    table
}

/// The same table with one data bit of some nodes turned and nodes added.
fn nearly(random: &mut Random, width: u32, table: &Table) -> Table {
    let mut other = table.clone();
    for (node, data) in &mut other {
        if random.once_in(3) {
            *data ^= (1 << random.below(31)) & usable(width, node.0);
        }
    }
    if random.once_in(3) {
        spread(random, width, &mut other, 4);
    }
    other
}

/// The same entries with empty nodes added, so that only the structure differs.
fn untidied(random: &mut Random, width: u32, table: &Table) -> Table {
    let mut other = table.clone();
    for _ in 0..1 + random.below(3) {
        let node = any_node(random, &other);
        if node.0 < last_depth(width) {
            let child = below(node, random.below(32) as u64);
            other.entry(child).or_insert(0);
        }
    }
    other
}

/// Two tables that both have much data in one node, and that node.
pub fn crowded(random: &mut Random, width: u32) -> (Table, Table, Node) {
    let (mut first, mut second) = pair(random, width);
    let node = any_node(random, &first);
    for table in [&mut first, &mut second] {
        add_node(table, node);
        let data = random.word() as u32 | random.word() as u32 & 0x7f;
        table.insert(node, data & usable(width, node.0));
    }
    (first, second, node)
}

/// Two small tables, either one the first: the same, nearly the same, with nodes cut off, with empty nodes more, or quite another.
pub fn pair(random: &mut Random, width: u32) -> (Table, Table) {
    let first = small(random, width);
    let second = match random.below(10) {
        0 => first.clone(),
        1..=4 => nearly(random, width, &first),
        5 | 6 => varied(random, width, &first),
        7 | 8 => untidied(random, width, &first),
        _ => small(random, width),
    };
    match random.once_in(2) {
        true => (first, second),
        false => (second, first),
    }
}

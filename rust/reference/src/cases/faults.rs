//! Every fault, at the first node and at later ones, at both widths.

use super::pools::chain;
use super::CaseList;

/// A fault's number and node, and words that have it at both widths.
type Faulty = (u64, u64, &'static [u32]);

/// Faults 1 and 3 to 8 that don't depend on the width.
const AT_BOTH_WIDTHS: [Faulty; 37] = [
    (1, 0, &[]),
    (1, 0, &[0]),
    (1, 0, &[1, 0]),
    (1, 0, &[0, 0, 1]),
    (1, 0, &[0, 0, 1, 0, 0]),
    (1, 0, &[0x8000_0000, 1, 7, 7, 1, 1, 1]),
    (3, 1, &[0, 0, 1, 0, 0, 0, 1, 0]),
    (3, 1, &[1, 0, 1, 0, 0x8000_0000, 1, 9, 9]),
    (3, 2, &[0, 1, 1, 0, 0, 0, 2, 0, 0, 0, 2, 0]),
    (3, 2, &[0, 1, 1, 0, 1, 0, 2, 0, 0xffff_ffff, 1, 0, 0]),
    (4, 0, &[0x8000_0000, 0, 1, 0]),
    (4, 0, &[0xffff_ffff, 3, 7, 7]),
    (4, 1, &[0, 1, 1, 0, 0x8000_0000, 0, 2, 0]),
    (4, 1, &[0, 1, 1, 0, 0x8000_0001, 0, 0, 5]),
    (6, 0, &[0, 0, 0, 0]),
    (6, 0, &[0, 0, 2, 0]),
    (6, 0, &[0, 0, 0xffff_ffff, 0]),
    (6, 0, &[1, 1, 0, 0, 1, 0, 2, 1]),
    (6, 0, &[0, 0xffff_ffff, 0xffff_ffff, 3]),
    (6, 1, &[0, 1, 1, 0, 0, 0, 1, 0]),
    (6, 1, &[0, 1, 1, 0, 0, 0, 3, 0]),
    (6, 1, &[0, 1, 1, 0, 0, 0, 0xffff_ffff, 0]),
    (6, 1, &[0, 1, 1, 0, 0, 1, 1, 0]),
    (6, 2, &[0, 3, 1, 0, 0, 1, 3, 0, 0, 0, 3, 0, 1, 0, 4, 0]),
    (7, 0, &[0, 1, 1, 0]),
    (7, 0, &[0, 0xffff_ffff, 1, 5]),
    (7, 0, &[0, 3, 1, 0, 0, 0, 3, 0]),
    (7, 1, &[0, 1, 1, 0, 0, 1, 2, 0]),
    (7, 1, &[0, 3, 1, 0, 1, 1, 3, 5, 1, 0, 3, 1]),
    (7, 2, &[0, 3, 1, 0, 0, 0, 3, 0, 0, 1, 3, 0]),
    (8, 0, &[0, 0, 1, 1]),
    (8, 0, &[1, 0, 1, 1]),
    (8, 0, &[1, 0, 1, 0xffff_ffff]),
    (8, 1, &[0, 1, 1, 0, 0, 0, 2, 1]),
    (8, 1, &[3, 1, 1, 0, 1, 0, 2, 1]),
    (8, 1, &[3, 1, 1, 0, 0, 0, 2, 0]),
    (8, 2, &[1, 3, 1, 0, 6, 0, 3, 1, 0, 0, 3, 1]),
];

/// Adds them all but the one for fault 2.
pub fn add(list: &mut CaseList) {
    for width in [32, 64] {
        for (fault, node, words) in AT_BOTH_WIDTHS {
            let count = words.len();
            let name = format!("{count} words: fault {fault} at node {node}");
            list.check(name, width, words);
        }
        let full = [0x7fff_ffff, 0, 1, 0];
        list.check("a root with all 31 data bits", width, &full);
        let name = "a root alone, without data";
        list.check(name, width, &[0, 0, 1, 0]);
        list.check("a root with all 32 children", width, &all_children());
    }
    add_last_depth(list);
}

/// Data and children at the last depths of both widths.
fn add_last_depth(list: &mut CaseList) {
    for bit in 0..8 {
        let name = match bit {
            7 => "depth 30, data bit 7: fault 4 at node 6".to_string(),
            _ => format!("depth 30, data bit {bit}"),
        };
        list.check(name, 32, &chain(7, 1 << bit));
    }
    list.check("depth 30, data bits 0 to 6", 32, &chain(7, 0x7f));
    let name = "depth 30, data bit 30: fault 4 at node 6";
    list.check(name, 32, &chain(7, 1 << 30));
    let name = "depth 60, data bits 0 to 30";
    list.check(name, 64, &chain(13, 0x7fff_ffff));
    let name = "depth 60, data bit 31: fault 4 at node 12";
    list.check(name, 64, &chain(13, 1 << 31));
    let name = "depth 25, all data bits";
    list.check(name, 32, &chain(6, 0x7fff_ffff));
    let name = "a child at depth 30: fault 5 at node 6";
    list.check(name, 32, &chain(8, 0));
    list.check("a child at depth 30, width 64", 64, &chain(8, 0));
    let name = "a child at depth 60: fault 5 at node 12";
    list.check(name, 64, &chain(14, 0));
    add_order_at_last_depth(list);
}

/// Fault 5 with others at the same node.
fn add_order_at_last_depth(list: &mut CaseList) {
    let mut words = chain(7, 0x80);
    words[25..].copy_from_slice(&[1, 99, 99]);
    let name = "a child and a long data bit at depth 30: fault 4 at node 6";
    list.check(name, 32, &words);
    words[24] = 1;
    let name = "a child at depth 30 with wrong numbers: fault 5 at node 6";
    list.check(name, 32, &words);
    let name = "wrong numbers at depth 30, width 64: fault 6 at node 6";
    list.check(name, 64, &words);
}

/// A root with 32 children without data.
fn all_children() -> Vec<u32> {
    let mut words = vec![0, 0xffff_ffff, 1, 0];
    for _ in 0..32 {
        words.extend([0, 0, 33, 0]);
    }
    words
}

/// Adds the one pool for fault 2; it is long, so it comes last in the file.
pub fn add_largest(list: &mut CaseList) {
    let words = vec![0; 65_537 * 4];
    list.check("65,537 nodes: fault 2 at node 0", 32, &words);
}

//! The lists of examples/incident from Rust: the networks that stay believed, by a covering difference, and then the forbidden ones inside
//! them, by a covering union.

use lhamtrovi::{
    covering_difference, covering_union, records, Record, Refusal, Root, Side, View, RECORD_WORDS,
};
use std::net::Ipv4Addr;

/// 10.0.0.0/8 and 10.1.2.0/24; the words come from the converter, rust/cidr.
#[rustfmt::skip]
const BELIEVED: [u32; 20] = [
    0x00000000, 0x00000002, 1, 0,
    0x00000200, 0x00000100, 2, 0,
    0x00000000, 0x00000001, 3, 1,
    0x00000000, 0x00010000, 4, 1,
    0x00020000, 0x00000000, 5, 1,
];

/// 10.1.0.0/16.
#[rustfmt::skip]
const FORBIDDEN: [u32; 16] = [
    0x00000000, 0x00000002, 1, 0,
    0x00000000, 0x00000100, 2, 0,
    0x00000000, 0x00000001, 3, 0,
    0x00000004, 0x00000000, 4, 0,
];

/// A network as people write it.
fn network(record: &Record) -> String {
    format!(
        "{}/{}",
        Ipv4Addr::from((record.key >> 32) as u32),
        record.len
    )
}

fn main() -> Result<(), Refusal> {
    let believed = View {
        pool: &BELIEVED,
        root: Root::WHOLE,
    };
    let forbidden = View {
        pool: &FORBIDDEN,
        root: Root::WHOLE,
    };
    let mut out = [0; 16 * RECORD_WORDS];

    let count = covering_difference(32, believed, forbidden, &mut out)?;
    for record in records(&out, count) {
        println!("believed {}", network(&record));
    }

    let count = covering_union(32, believed, forbidden, &mut out)?;
    for record in records(&out, count).filter(|record| record.side == Side::Right) {
        if let Some(cover) = record.cover {
            println!(
                "forbidden {} lies inside a believed /{}",
                network(&record),
                cover.len
            );
        }
    }
    Ok(())
}

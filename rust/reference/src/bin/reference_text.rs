//! The text program: reads standard input, writes the answer to standard output.
#![deny(warnings)]
#![forbid(unsafe_code)]

use reference::text::{run, MOST_BYTES};
use std::io::{stdin, stdout, Read, Result, Write};

/// Reads at most one byte more than is accepted; a failed read or write ends the program with an error.
fn main() -> Result<()> {
    let mut input = Vec::new();
    let limit = MOST_BYTES as u64 + 1;
    stdin().lock().take(limit).read_to_end(&mut input)?;
    let mut output = stdout().lock();
    output.write_all(&run(&input))?;
    output.flush()
}

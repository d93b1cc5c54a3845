//! Writes the stored vectors to standard output.
#![deny(warnings)]
#![forbid(unsafe_code)]

use reference::{cases, vectors};
use std::io::{stdout, Result, Write};

/// Runs all cases and writes them with their answers.
fn main() -> Result<()> {
    let text = vectors::write(&cases::all());
    let mut output = stdout().lock();
    output.write_all(text.as_bytes())?;
    output.flush()
}

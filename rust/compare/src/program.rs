//! The text program against the reference's.

use std::fmt;
use std::io::{ErrorKind, Write};
use std::path::PathBuf;
use std::process::{Command, Stdio};

/// An input on which the two wrote different bytes.
#[derive(Debug)]
pub struct TextDisagreement {
    /// The whole input.
    pub input: Vec<u8>,
    /// What the program wrote.
    pub program: Vec<u8>,
    /// What the reference wrote.
    pub reference: Vec<u8>,
}

/// The program to run: LHAMTROVI_PROGRAM, or where the build leaves it below the project's root.
pub fn path() -> PathBuf {
    match std::env::var_os("LHAMTROVI_PROGRAM") {
        Some(path) => PathBuf::from(path),
        None => PathBuf::from("target/bin/prefixsets"),
    }
}

/// What a program writes for an input.
fn run(program: &PathBuf, input: &[u8]) -> std::io::Result<Vec<u8>> {
    let mut child = Command::new(program)
        .stdin(Stdio::piped())
        .stdout(Stdio::piped())
        .spawn()?;
    let mut pipe = child.stdin.take().expect("it is piped");
    match pipe.write_all(input) {
        Err(error) if error.kind() != ErrorKind::BrokenPipe => return Err(error),
        _ => {}
    }
    drop(pipe);
    Ok(child.wait_with_output()?.stdout)
}

/// Runs the program and the reference on an input, and answers what both wrote.
pub fn compare(
    program: &PathBuf,
    input: &[u8],
) -> std::io::Result<Result<Vec<u8>, TextDisagreement>> {
    let said = run(program, input)?;
    let expected = reference::text::run(input);
    if said == expected {
        return Ok(Ok(said));
    }
    Ok(Err(TextDisagreement {
        input: input.to_vec(),
        program: said,
        reference: expected,
    }))
}

impl fmt::Display for TextDisagreement {
    fn fmt(&self, f: &mut fmt::Formatter) -> fmt::Result {
        let shown = [
            ("input", &self.input),
            ("program", &self.program),
            ("reference", &self.reference),
        ];
        for (name, bytes) in shown {
            writeln!(f, "{name}, {} bytes:", bytes.len())?;
            writeln!(f, "{}", bytes.escape_ascii())?;
        }
        Ok(())
    }
}

//! Turns lists of networks into the text program's input, and its output into lines for people. Not proved.
#![deny(warnings)]
#![forbid(unsafe_code)]

mod input;
mod list;
mod network;
mod output;

use network::Network;
use std::io::{Read, Write};
use std::process::ExitCode;

const HELP: &str = "\
cidr: lists of networks for the text program, and its answers for people. Not proved.

    cidr input OPERATION LEFT RIGHT [--left-root NET] [--right-root NET]
        writes the text program's input for two files of networks
    cidr output INPUT
        reads the text program's output from standard input and writes networks; INPUT is the
        input that it answers, which says the width and the operation
    cidr pool LIST
        writes the words of a list's pool, a node to a line, for programs in C or Rust

A file has a network to a line, such as 10.0.0.0/8 or 2001:db8::/32, IPv4 and IPv6 not mixed;
empty lines and lines that begin with # are passed over. IPv6 prefixes have at most 64 bits.
OPERATION: union, intersection, difference, covering-difference, covering-union, equality.

    cidr input covering-difference believed forbidden > input
    prefixsets < input | cidr output input

Exit status: 0 done, 1 the text program refused the call, 2 bad arguments or a bad file.
";

const OPERATIONS: [&str; 6] = [
    "union",
    "intersection",
    "difference",
    "covering-difference",
    "covering-union",
    "equality",
];

fn main() -> ExitCode {
    let arguments: Vec<String> = std::env::args().skip(1).collect();
    let words: Vec<&str> = arguments.iter().map(String::as_str).collect();
    let ended = match words[..] {
        ["--help"] | ["-h"] | ["help"] => show(HELP).map(|()| true),
        ["input", operation, left, right, ref roots @ ..] => {
            to_input(operation, left, right, roots)
        }
        ["output", input] => from_output(input),
        ["pool", file] => pool(file),
        _ => Err("bad arguments; 'cidr --help' says what there is".to_string()),
    };
    match ended {
        Ok(true) => ExitCode::SUCCESS,
        Ok(false) => ExitCode::from(1),
        Err(what) => {
            eprintln!("cidr: {what}");
            ExitCode::from(2)
        }
    }
}

/// Writes to standard output.
fn show(text: &str) -> Result<(), String> {
    let mut out = std::io::stdout();
    out.write_all(text.as_bytes())
        .and_then(|()| out.flush())
        .map_err(|e| format!("cannot write: {e}"))
}

/// The program's input.
fn to_input(operation: &str, left: &str, right: &str, options: &[&str]) -> Result<bool, String> {
    if !OPERATIONS.contains(&operation) {
        return Err(format!(
            "'{operation}' is no operation; there are {}",
            OPERATIONS.join(", ")
        ));
    }
    let mut call = input::Call {
        operation: operation.to_string(),
        left: left.to_string(),
        right: right.to_string(),
        left_root: None,
        right_root: None,
    };
    for pair in options.chunks(2) {
        match *pair {
            ["--left-root", root] => call.left_root = Some(Network::parse(root)?),
            ["--right-root", root] => call.right_root = Some(Network::parse(root)?),
            _ => return Err(format!("'{}' is no option with a network", pair[0])),
        }
    }
    show(&input::text(&call)?)?;
    Ok(true)
}

/// The program's output for people.
fn from_output(file: &str) -> Result<bool, String> {
    let input = std::fs::read_to_string(file).map_err(|e| format!("{file}: {e}"))?;
    let asked = output::Asked::of(&input).map_err(|e| format!("{file}: {e}"))?;
    let mut output = String::new();
    std::io::stdin()
        .read_to_string(&mut output)
        .map_err(|e| format!("cannot read: {e}"))?;
    let report = output::report(&asked, &output)?;
    show(&report.text)?;
    Ok(report.done)
}

/// A pool's words for C or Rust.
fn pool(file: &str) -> Result<bool, String> {
    let networks = input::open(file)?;
    list::common_width(&[(file, &networks)])?;
    let mut text = String::new();
    for node in input::pool(file, &networks).chunks_exact(4) {
        text += &format!(
            "0x{:08x}, 0x{:08x}, {}, {},\n",
            node[0], node[1], node[2], node[3]
        );
    }
    show(&text)?;
    Ok(true)
}

//! The text program's records back to networks.

use crate::network::{cut, Network};
use std::fmt::Write as _;

/// Lines for people, and whether the call was done.
pub struct Report {
    pub text: String,
    pub done: bool,
}

/// What an input asked for, as far as its answer cannot tell.
pub struct Asked {
    pub width: u32,
    pub equality: bool,
}

impl Asked {
    /// The first two lines of the program's input.
    pub fn of(input: &str) -> Result<Asked, String> {
        let mut lines = input.lines();
        let width = match lines.next() {
            Some("W\t32") => 32,
            Some("W\t64") => 64,
            _ => return Err("its first line is not W with a width of 32 or 64".to_string()),
        };
        match lines.next().and_then(|line| line.strip_prefix("O\t")) {
            Some(operation) => Ok(Asked {
                width,
                equality: operation == "equality",
            }),
            None => Err("its second line is not O with an operation".to_string()),
        }
    }
}

/// The program's output as lines for people.
pub fn report(asked: &Asked, output: &str) -> Result<Report, String> {
    let Asked { width, equality } = *asked;
    let mut text = String::new();
    let mut lines = output.lines().enumerate();
    let last = loop {
        let (place, line) = lines.next().ok_or("the output has no E line")?;
        let wrong = |what: &str| format!("line {}: {what}: '{line}'", place + 1);
        let fields: Vec<&str> = line.split('\t').collect();
        match fields[..] {
            ["E", number, beside] => break (number.to_string(), beside.to_string()),
            [tag, key, len, _, _, cover] => {
                let record =
                    record(width, tag, key, len, cover).ok_or_else(|| wrong("no record"))?;
                writeln!(text, "{record}").expect("text takes all");
            }
            _ => return Err(wrong("neither a record nor an E line")),
        }
    };
    if lines.next().is_some() {
        return Err("there are lines after the E line".to_string());
    }
    let done = last.0 == "0";
    text += &end(&last.0, &last.1, equality);
    Ok(Report { text, done })
}

/// A record as a line: the side, the network, and what covers it.
fn record(width: u32, tag: &str, key: &str, len: &str, cover: &str) -> Option<String> {
    let key = u64::from_str_radix(key, 16).ok()?;
    let len: u32 = len.parse().ok().filter(|&len| len <= width)?;
    let network = Network { width, key, len };
    let (side, other) = match tag {
        "L" => ("left", "right"),
        "R" => ("right", "left"),
        "B" => ("both", ""),
        _ => return None,
    };
    if cover == "-" {
        return Some(format!("{side}\t{network}"));
    }
    let len: u32 = cover.parse().ok().filter(|&cover| cover <= len)?;
    let over = Network {
        width,
        key: cut(key, len),
        len,
    };
    Some(format!("{side}\t{network}\tinside {other} {over}"))
}

/// The E line in words.
fn end(number: &str, beside: &str, equality: bool) -> String {
    match (number, equality) {
        ("0", true) if beside == "1" => "the same networks\n".to_string(),
        ("0", true) => "not the same networks\n".to_string(),
        ("0", false) if beside == "1" => "1 network\n".to_string(),
        ("0", false) => format!("{beside} networks\n"),
        _ => format!("refused: {}\n", refusal(number, beside)),
    }
}

/// A refusal in words.
fn refusal(number: &str, beside: &str) -> String {
    match number {
        "1" => "the width is not 32 or 64".to_string(),
        "2" => format!("the left pool has a fault at node {beside}"),
        "3" => format!("the right pool has a fault at node {beside}"),
        "4" => "the left root is longer than the width".to_string(),
        "5" => "the right root is longer than the width".to_string(),
        "6" => format!("the list has {beside} networks, and there is room for 512"),
        "9" if beside == "0" => "the input is longer than 65,536 bytes".to_string(),
        "9" => format!("line {beside} of the input is bad or missing"),
        _ => format!("number {number}, {beside}"),
    }
}

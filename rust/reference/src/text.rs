//! The text program: tab-parted lines in, record lines and one E line out.

use crate::calls::{equal_keys, list, Answer};
use crate::lists::{Operation, NO_COVER, NO_VALUE, RECORD_WORDS};
use crate::pool::NODE_WORDS;
use crate::prefix::Root;

/// A longer input is refusal 9, line 0.
pub const MOST_BYTES: usize = 65_536;
/// A further node line of a side is bad.
const MOST_NODES: usize = 1_024;
/// More records are refusal 6.
const MOST_RECORDS: usize = 512;
/// W, O, L and R stand in the first four lines.
const HEAD_LINES: usize = 4;

/// What line O asks for.
enum Question {
    List(Operation),
    Equality,
}

/// A good input.
struct Request {
    width: u32,
    question: Question,
    left_root: Root,
    right_root: Root,
    left: Vec<u32>,
    right: Vec<u32>,
}

/// The program's whole output for this input.
pub fn run(input: &[u8]) -> Vec<u8> {
    match parse(input) {
        Ok(request) => answer(&request).into_bytes(),
        Err(line) => end_line(9, line).into_bytes(),
    }
}

/// Reads the input, or names its first bad or missing line (0 if it is too long).
fn parse(input: &[u8]) -> Result<Request, u64> {
    if input.len() > MOST_BYTES {
        return Err(0);
    }
    let lines: Vec<&[u8]> = input.split_inclusive(|&byte| byte == b'\n').collect();
    let width = head(&lines, 1, width_line)?;
    let question = head(&lines, 2, operation_line)?;
    let left_root = head(&lines, 3, |fields| root_line(b"L", fields))?;
    let right_root = head(&lines, 4, |fields| root_line(b"R", fields))?;
    let mut request = Request {
        width,
        question,
        left_root,
        right_root,
        left: Vec::new(),
        right: Vec::new(),
    };
    for (place, line) in lines.iter().enumerate().skip(HEAD_LINES) {
        let added = fields(line).and_then(|fields| request.add_node(&fields));
        added.ok_or(place as u64 + 1)?;
    }
    Ok(request)
}

/// The fields of a line, or none if no line feed closes it.
fn fields(line: &[u8]) -> Option<Vec<&[u8]>> {
    let line = line.strip_suffix(b"\n")?;
    Some(line.split(|&byte| byte == b'\t').collect())
}

/// Reads line `number`, from 1; if it is bad or missing its number is the error.
fn head<T>(lines: &[&[u8]], number: usize, read: impl Fn(&[&[u8]]) -> Option<T>) -> Result<T, u64> {
    let line = lines.get(number - 1).and_then(|line| fields(line));
    let value = line.and_then(|fields| read(&fields));
    value.ok_or(number as u64)
}

/// Line W: the width.
fn width_line(fields: &[&[u8]]) -> Option<u32> {
    match fields {
        [b"W", width] => decimal(width),
        _ => None,
    }
}

/// Line O: the operation.
fn operation_line(fields: &[&[u8]]) -> Option<Question> {
    match fields {
        [b"O", b"union"] => Some(Question::List(Operation::Union)),
        [b"O", b"intersection"] => Some(Question::List(Operation::Intersection)),
        [b"O", b"difference"] => Some(Question::List(Operation::Difference)),
        [b"O", b"covering-difference"] => Some(Question::List(Operation::CoveringDifference)),
        [b"O", b"covering-union"] => Some(Question::List(Operation::CoveringUnion)),
        [b"O", b"equality"] => Some(Question::Equality),
        _ => None,
    }
}

/// Line L or R: a root's key and length.
fn root_line(letter: &[u8], fields: &[&[u8]]) -> Option<Root> {
    match fields {
        [first, key, len] if *first == letter => Some(Root {
            key: hex(key, 16)?,
            len: decimal(len)?,
        }),
        _ => None,
    }
}

impl Request {
    /// Adds the node of an l or r line; an l line after an r line is bad.
    fn add_node(&mut self, fields: &[&[u8]]) -> Option<()> {
        let (side, data, child) = match fields {
            [b"l", data, child] if self.right.is_empty() => (&mut self.left, data, child),
            [b"r", data, child] => (&mut self.right, data, child),
            _ => return None,
        };
        if side.len() == MOST_NODES * NODE_WORDS {
            return None;
        }
        let data = hex(data, 8)? as u32;
        let child = hex(child, 8)? as u32;
        let (first_child, first_value) = next_numbers(side);
        side.extend([data, child, first_child, first_value]);
        Some(())
    }
}

/// The first child and first value of the node after these: worked out by adding the last node's bits.
fn next_numbers(nodes: &[u32]) -> (u32, u32) {
    match nodes {
        [.., data, child, first_child, first_value] => (
            first_child + child.count_ones(),
            first_value + data.count_ones(),
        ),
        _ => (1, 0),
    }
}

/// A decimal number without leading zeros, at most 255.
fn decimal(digits: &[u8]) -> Option<u32> {
    let leading_zero = digits.len() > 1 && digits[0] == b'0';
    if digits.is_empty() || digits.len() > 3 || leading_zero {
        return None;
    }
    let mut number = 0;
    for digit in digits {
        if !digit.is_ascii_digit() {
            return None;
        }
        number = number * 10 + u32::from(digit - b'0');
    }
    (number <= 255).then_some(number)
}

/// A number of exactly so many lowercase hex digits, at most 16.
fn hex(digits: &[u8], count: usize) -> Option<u64> {
    if digits.len() != count {
        return None;
    }
    let mut number = 0;
    for digit in digits {
        let value = match digit {
            b'0'..=b'9' => digit - b'0',
            b'a'..=b'f' => digit - b'a' + 10,
            _ => return None,
        };
        number = number << 4 | u64::from(value);
    }
    Some(number)
}

/// Asks the library and writes its answer.
fn answer(request: &Request) -> String {
    let mut out = vec![0; MOST_RECORDS * RECORD_WORDS];
    let answer = ask(request, &mut out);
    let records = match (&request.question, answer.number) {
        (Question::List(_), 0) => answer.beside as usize,
        _ => 0,
    };
    let lines = out.chunks_exact(RECORD_WORDS).take(records);
    let mut text: String = lines.map(record_line).collect();
    text.push_str(&end_line(answer.number, answer.beside));
    text
}

/// The library's answer to the request.
fn ask(request: &Request, out: &mut [u64]) -> Answer {
    let Request {
        width,
        left_root,
        right_root,
        ref left,
        ref right,
        ..
    } = *request;
    match request.question {
        Question::List(operation) => {
            list(operation, width, left, left_root, right, right_root, out)
        }
        Question::Equality => equal_keys(width, left, left_root, right, right_root),
    }
}

/// The line of a record: tag, key, length, left value, right value, cover length.
fn record_line(record: &[u64]) -> String {
    let tag = match record[2] {
        1 => "L",
        2 => "R",
        _ => "B",
    };
    let left = or_dash(record[3], NO_VALUE);
    let right = or_dash(record[4], NO_VALUE);
    let cover = or_dash(record[5], NO_COVER);
    let (key, len) = (record[0], record[1]);
    format!("{tag}\t{key:016x}\t{len}\t{left}\t{right}\t{cover}\n")
}

/// The number in decimal, or - if it is the mark for a missing one.
fn or_dash(number: u64, missing: u64) -> String {
    if number == missing {
        return "-".to_string();
    }
    number.to_string()
}

/// The E line: the refusal number and the number beside it.
fn end_line(number: u32, beside: u64) -> String {
    format!("E\t{number}\t{beside}\n")
}

//! Stored answers of the published views: cases and answers as lines of text.

use crate::answers::{Answers, Record};
use crate::cases::Case;
use std::fmt::Write;

/// A case with the answers that the published views gave.
#[derive(Debug, PartialEq, Eq)]
pub struct Stored {
    /// The case.
    pub case: Case,
    /// The answers.
    pub answers: Answers,
}

/// Words in hexadecimal with blanks before them.
fn hex(words: impl Iterator<Item = u64>) -> String {
    words.fold(String::new(), |mut text, word| {
        write!(text, " {word:x}").expect("a string takes it");
        text
    })
}

/// The lines of a case: its width, its two views, its five lists and key equality.
pub fn write(stored: &Stored) -> String {
    let Stored { case, answers } = stored;
    let view = |words: &[u32], (key, len): (u64, u32)| {
        let words = words.iter().map(|word| u64::from(*word));
        hex([key, u64::from(len)].into_iter().chain(words))
    };
    let mut text = format!("case {:x}\n", case.width);
    text += &format!("left{}\n", view(&case.left, case.left_root));
    text += &format!("right{}\n", view(&case.right, case.right_root));
    for list in &answers.lists {
        text += &format!("list{}\n", hex(list.iter().flatten().copied()));
    }
    text += &format!("equal {}\n", u8::from(answers.equal));
    text
}

/// The words of a line that starts with this name.
fn words(line: Option<&str>, name: &str) -> Option<Vec<u64>> {
    let mut parts = line?.split(' ');
    if parts.next() != Some(name) {
        return None;
    }
    parts
        .map(|word| u64::from_str_radix(word, 16).ok())
        .collect()
}

/// A root and a pool.
fn view(words: Vec<u64>) -> Option<((u64, u32), Vec<u32>)> {
    let (root, pool) = words.split_first_chunk::<2>()?;
    let pool = pool.iter().map(|word| u32::try_from(*word).ok());
    let len = u32::try_from(root[1]).ok()?;
    Some(((root[0], len), pool.collect::<Option<_>>()?))
}

/// The records of a list.
fn records(words: Vec<u64>) -> Option<Vec<Record>> {
    let records = words.chunks(6).map(|record| record.try_into().ok());
    records.collect()
}

/// The case that starts at the next line, if it is written as it should be.
fn read_one<'a>(lines: &mut impl Iterator<Item = &'a str>) -> Option<Stored> {
    let width = u32::try_from(*words(lines.next(), "case")?.first()?).ok()?;
    let (left_root, left) = view(words(lines.next(), "left")?)?;
    let (right_root, right) = view(words(lines.next(), "right")?)?;
    let mut lists: [Vec<Record>; 5] = Default::default();
    for list in &mut lists {
        *list = records(words(lines.next(), "list")?)?;
    }
    let equal = words(lines.next(), "equal")? == [1];
    Some(Stored {
        case: Case {
            width,
            left,
            left_root,
            right,
            right_root,
        },
        answers: Answers { lists, equal },
    })
}

/// All cases of a file; lines that start with # are remarks. A line that is not understood is an error.
pub fn read(text: &str) -> Result<Vec<Stored>, String> {
    let mut lines = text
        .lines()
        .filter(|line| !line.starts_with('#'))
        .peekable();
    let mut list = Vec::new();
    while let Some(line) = lines.peek().copied() {
        let stored = read_one(&mut lines).ok_or(format!("after '{line}'"))?;
        list.push(stored);
    }
    Ok(list)
}

//! The stored vectors: a case, its run, and the file format's writer and reader.

use crate::calls::{check, equal_keys, list, tidy, Answer};
use crate::lists::Operation;
use crate::prefix::Root;
use std::fmt::Write;

/// A pool's words with a root.
#[derive(Clone, Debug, PartialEq, Eq)]
pub struct View {
    pub words: Vec<u32>,
    pub root: Root,
}

/// One call with all it is lent; buffers have their contents before the call.
#[derive(Clone, Debug, PartialEq, Eq)]
pub enum Call {
    Check {
        pool: Vec<u32>,
    },
    List {
        operation: Operation,
        left: View,
        right: View,
        out: Vec<u64>,
    },
    Equality {
        left: View,
        right: View,
    },
    Tidy {
        view: View,
        out: Vec<u32>,
        values: Vec<u32>,
    },
}

/// A named call at a width.
#[derive(Clone, Debug, PartialEq, Eq)]
pub struct Case {
    pub name: String,
    pub width: u32,
    pub call: Call,
}

/// The lent buffers after the call.
#[derive(Clone, Debug, PartialEq, Eq)]
pub enum After {
    Nothing,
    Records(Vec<u64>),
    Pool { out: Vec<u32>, values: Vec<u32> },
}

/// What a call gives.
#[derive(Clone, Debug, PartialEq, Eq)]
pub struct Outcome {
    pub answer: Answer,
    pub after: After,
}

/// A case with what it gives.
#[derive(Clone, Debug, PartialEq, Eq)]
pub struct Stored {
    pub case: Case,
    pub outcome: Outcome,
}

/// The list operations in the order of their kinds, from 1.
pub const OPERATIONS: [Operation; 5] = [
    Operation::Union,
    Operation::Intersection,
    Operation::Difference,
    Operation::CoveringDifference,
    Operation::CoveringUnion,
];

impl Call {
    /// The kind's number in the file.
    pub fn kind(&self) -> u32 {
        match self {
            Call::Check { .. } => 0,
            Call::List { operation, .. } => *operation as u32 + 1,
            Call::Equality { .. } => 6,
            Call::Tidy { .. } => 7,
        }
    }
}

impl Case {
    /// Makes the call on copies of the lent buffers.
    pub fn run(&self) -> Outcome {
        let width = self.width;
        match &self.call {
            Call::Check { pool } => Outcome {
                answer: check(width, pool),
                after: After::Nothing,
            },
            Call::List {
                operation,
                left,
                right,
                out,
            } => run_list(width, *operation, left, right, out.clone()),
            Call::Equality { left, right } => Outcome {
                answer: equal_keys(width, &left.words, left.root, &right.words, right.root),
                after: After::Nothing,
            },
            Call::Tidy { view, out, values } => run_tidy(width, view, out.clone(), values.clone()),
        }
    }

    /// Makes the call and keeps what it gives.
    pub fn store(self) -> Stored {
        let outcome = self.run();
        Stored {
            case: self,
            outcome,
        }
    }
}

/// Makes a list call.
fn run_list(
    width: u32,
    operation: Operation,
    left: &View,
    right: &View,
    mut out: Vec<u64>,
) -> Outcome {
    let (l, r) = (&left.words, &right.words);
    let answer = list(operation, width, l, left.root, r, right.root, &mut out);
    Outcome {
        answer,
        after: After::Records(out),
    }
}

/// Makes a tidying call.
fn run_tidy(width: u32, view: &View, mut out: Vec<u32>, mut values: Vec<u32>) -> Outcome {
    let answer = tidy(width, &view.words, view.root, &mut out, &mut values);
    Outcome {
        answer,
        after: After::Pool { out, values },
    }
}

/// The first lines of the file.
const HEADER: &str = "\
# Stored cases for the check, the five lists, key equality and tidying.
# The format is told in README.md beside this file; make-vectors prints it.
";

/// The whole file.
pub fn write(stored: &[Stored]) -> String {
    let mut file = File {
        text: HEADER.to_string(),
    };
    for one in stored {
        file.case(one);
    }
    file.text
}

/// The file while it is written.
struct File {
    text: String,
}

impl File {
    /// One line of numbers; no line at all if there are none.
    fn line<T: Into<u64>>(&mut self, numbers: impl IntoIterator<Item = T>) {
        let mut gap = "";
        for number in numbers {
            let number: u64 = number.into();
            write!(self.text, "{gap}{number:x}").expect("a string takes all");
            gap = " ";
        }
        if !gap.is_empty() {
            self.text.push('\n');
        }
    }

    /// A line with the count of the words and the words.
    fn counted<T: Into<u64> + Copy>(&mut self, words: &[T]) {
        let words64 = words.iter().map(|&word| word.into());
        self.line(std::iter::once(words.len() as u64).chain(words64));
    }

    /// Two lines: the counted pool words, the root.
    fn view(&mut self, view: &View) {
        self.counted(&view.words);
        self.line([view.root.key, u64::from(view.root.len)]);
    }

    /// One case with its name in front.
    fn case(&mut self, stored: &Stored) {
        let Stored { case, outcome } = stored;
        self.text.push_str("# ");
        self.text.push_str(&case.name);
        self.text.push('\n');
        self.line([case.call.kind(), case.width]);
        self.call(&case.call);
        let Answer {
            number,
            beside,
            second,
        } = outcome.answer;
        self.line([u64::from(number), beside, second]);
        match &outcome.after {
            After::Nothing => {}
            After::Records(out) => self.line(out.iter().copied()),
            After::Pool { out, values } => {
                self.line(out.iter().copied());
                self.line(values.iter().copied());
            }
        }
    }

    /// What the call is lent.
    fn call(&mut self, call: &Call) {
        match call {
            Call::Check { pool } => self.counted(pool),
            Call::List {
                left, right, out, ..
            } => {
                self.view(left);
                self.view(right);
                self.counted(out);
            }
            Call::Equality { left, right } => {
                self.view(left);
                self.view(right);
            }
            Call::Tidy { view, out, values } => {
                self.view(view);
                self.counted(out);
                self.counted(values);
            }
        }
    }
}

/// Reads a whole file; the error says at which line it is wrong.
pub fn read(text: &str) -> Result<Vec<Stored>, String> {
    let mut numbers = Numbers {
        tokens: tokens(text)?.into_iter().peekable(),
        last_line: 0,
    };
    let mut all = Vec::new();
    while let Some(name) = numbers.name() {
        all.push(numbers.stored(name)?);
    }
    match numbers.tokens.next() {
        None => Ok(all),
        Some((line, _)) => Err(format!("line {line}: a case without a name")),
    }
}

/// A part of the file.
enum Token<'a> {
    Number(u64),
    Comment(&'a str),
}

/// The numbers and comments with their line numbers, from 1.
fn tokens(text: &str) -> Result<Vec<(usize, Token<'_>)>, String> {
    let mut list = Vec::new();
    for (line, content) in (1..).zip(text.lines()) {
        let (numbers, comment) = match content.split_once('#') {
            Some((numbers, comment)) => (numbers, Some(comment.trim())),
            None => (content, None),
        };
        for digits in numbers.split_ascii_whitespace() {
            let number = hex_number(digits).ok_or(format!("line {line}: {digits} is no number"))?;
            list.push((line, Token::Number(number)));
        }
        list.extend(comment.map(|comment| (line, Token::Comment(comment))));
    }
    Ok(list)
}

/// A number in lowercase hex without prefix or leading zeros.
fn hex_number(digits: &str) -> Option<u64> {
    let number = u64::from_str_radix(digits, 16).ok()?;
    (format!("{number:x}") == digits).then_some(number)
}

/// The file while it is read.
struct Numbers<'a> {
    tokens: std::iter::Peekable<std::vec::IntoIter<(usize, Token<'a>)>>,
    last_line: usize,
}

impl Numbers<'_> {
    /// The last comment before the next number; none if no comment or no number follows.
    fn name(&mut self) -> Option<String> {
        let mut name = None;
        while let Some((_, Token::Comment(comment))) = self.tokens.peek() {
            name = Some(comment.to_string());
            self.tokens.next();
        }
        self.tokens.peek().and(name)
    }

    /// The next number; comments before it are left out.
    fn next(&mut self) -> Result<u64, String> {
        for (line, token) in self.tokens.by_ref() {
            self.last_line = line;
            if let Token::Number(number) = token {
                return Ok(number);
            }
        }
        let line = self.last_line;
        Err(format!("line {line}: the file ends inside a case"))
    }

    /// The next number, which must fit a u32.
    fn next_u32(&mut self) -> Result<u32, String> {
        let number = self.next()?;
        let line = self.last_line;
        u32::try_from(number).map_err(|_| format!("line {line}: {number:x} is too large"))
    }

    /// So many u64 words.
    fn words_u64(&mut self, count: u64) -> Result<Vec<u64>, String> {
        (0..count).map(|_| self.next()).collect()
    }

    /// So many u32 words.
    fn words_u32(&mut self, count: u64) -> Result<Vec<u32>, String> {
        (0..count).map(|_| self.next_u32()).collect()
    }

    /// A count and so many u32 words.
    fn counted_u32(&mut self) -> Result<Vec<u32>, String> {
        let count = self.next()?;
        self.words_u32(count)
    }

    /// A pool and its root.
    fn view(&mut self) -> Result<View, String> {
        let words = self.counted_u32()?;
        let key = self.next()?;
        let len = self.next_u32()?;
        let root = Root { key, len };
        Ok(View { words, root })
    }

    /// A list call's views and output.
    fn list(&mut self, operation: Operation) -> Result<Call, String> {
        let left = self.view()?;
        let right = self.view()?;
        let count = self.next()?;
        let out = self.words_u64(count)?;
        Ok(Call::List {
            operation,
            left,
            right,
            out,
        })
    }

    /// What a call of this kind is lent.
    fn call(&mut self, kind: u64) -> Result<Call, String> {
        match kind {
            0 => Ok(Call::Check {
                pool: self.counted_u32()?,
            }),
            1..=5 => self.list(OPERATIONS[kind as usize - 1]),
            6 => Ok(Call::Equality {
                left: self.view()?,
                right: self.view()?,
            }),
            7 => Ok(Call::Tidy {
                view: self.view()?,
                out: self.counted_u32()?,
                values: self.counted_u32()?,
            }),
            _ => Err(format!("line {}: no kind {kind:x}", self.last_line)),
        }
    }

    /// The answer's three numbers.
    fn answer(&mut self) -> Result<Answer, String> {
        Ok(Answer {
            number: self.next_u32()?,
            beside: self.next()?,
            second: self.next()?,
        })
    }

    /// One case after its name.
    fn stored(&mut self, name: String) -> Result<Stored, String> {
        let kind = self.next()?;
        let width = self.next_u32()?;
        let call = self.call(kind)?;
        let answer = self.answer()?;
        let after = match &call {
            Call::Check { .. } | Call::Equality { .. } => After::Nothing,
            Call::List { out, .. } => After::Records(self.words_u64(out.len() as u64)?),
            Call::Tidy { out, values, .. } => After::Pool {
                out: self.words_u32(out.len() as u64)?,
                values: self.words_u32(values.len() as u64)?,
            },
        };
        let case = Case { name, width, call };
        let outcome = Outcome { answer, after };
        Ok(Stored { case, outcome })
    }
}

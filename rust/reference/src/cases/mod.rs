//! The cases of the stored vectors.

mod document;
mod faults;
mod pools;
mod random;
mod refusals;
mod roots;
mod same_and_tidy;

pub use random::Random;

use crate::prefix::Root;
use crate::vectors::{Call, Case, Stored, View, OPERATIONS};
use crate::Operation;

/// All cases with their answers, in the order of the file.
pub fn all() -> Vec<Stored> {
    let mut list = CaseList { cases: Vec::new() };
    document::add(&mut list);
    faults::add(&mut list);
    roots::add(&mut list);
    refusals::add(&mut list);
    same_and_tidy::add(&mut list);
    random::add(&mut list);
    faults::add_largest(&mut list);
    list.cases.into_iter().map(Case::store).collect()
}

/// A random well-formed pool with at most about 12 nodes, for tests.
pub fn random_pool(random: &mut Random, width: u32) -> Vec<u32> {
    crate::tidy::words(&random::table(random, width))
}

/// Two random well-formed pools that have much in common, for tests.
pub fn random_pair(random: &mut Random, width: u32) -> (Vec<u32>, Vec<u32>) {
    let (left, right) = random::pair(random, width);
    (crate::tidy::words(&left), crate::tidy::words(&right))
}

/// The root of the whole pool.
const WHOLE: Root = Root { key: 0, len: 0 };

/// Distinct non-zero marks for an output of records before the call.
fn marks_u64(count: usize) -> Vec<u64> {
    (0xa5a5_0000_0000_0000..).take(count).collect()
}

/// Distinct non-zero marks for an output of u32 words before the call.
fn marks_u32(count: usize) -> Vec<u32> {
    (0xa5a5_0000..).take(count).collect()
}

/// A view of these words.
fn view(words: &[u32], root: Root) -> View {
    let words = words.to_vec();
    View { words, root }
}

/// The document's name of an operation.
fn name_of(operation: Operation) -> &'static str {
    match operation {
        Operation::Union => "union",
        Operation::Intersection => "intersection",
        Operation::Difference => "difference",
        Operation::CoveringDifference => "covering difference",
        Operation::CoveringUnion => "covering union",
    }
}

/// Output words that exactly the records of a list fill; 0 if the call is refused.
fn exact_words(operation: Operation, width: u32, left: &View, right: &View) -> usize {
    let (l, r) = (&left.words, &right.words);
    let answer = crate::list(operation, width, l, left.root, r, right.root, &mut []);
    match answer.number {
        6 => answer.beside as usize * crate::lists::RECORD_WORDS,
        _ => 0,
    }
}

/// Pool words and values that exactly a tidy pool fills; 0 if the call is refused.
fn exact_tidy(width: u32, view: &View) -> (usize, usize) {
    let mut out = vec![0; view.words.len()];
    let nodes = match crate::tidy(width, &view.words, view.root, &mut [], &mut []) {
        crate::Answer {
            number: 6, beside, ..
        } => beside as usize,
        _ => 0,
    };
    let short = crate::tidy(width, &view.words, view.root, &mut out, &mut []);
    let values = match short.number {
        7 => short.beside as usize,
        _ => 0,
    };
    (nodes * crate::pool::NODE_WORDS, values)
}

/// The cases so far.
struct CaseList {
    cases: Vec<Case>,
}

impl CaseList {
    /// Adds a call.
    fn add(&mut self, name: impl Into<String>, width: u32, call: Call) {
        let name = name.into();
        self.cases.push(Case { name, width, call });
    }

    /// Adds a check.
    fn check(&mut self, name: impl Into<String>, width: u32, pool: &[u32]) {
        let pool = pool.to_vec();
        self.add(name, width, Call::Check { pool });
    }

    /// Adds a list with so many output words.
    fn list(
        &mut self,
        name: impl Into<String>,
        operation: Operation,
        width: u32,
        (left, right): (&View, &View),
        words: usize,
    ) {
        let call = Call::List {
            operation,
            left: left.clone(),
            right: right.clone(),
            out: marks_u64(words),
        };
        self.add(name, width, call);
    }

    /// Adds a key equality.
    fn equality(&mut self, name: impl Into<String>, width: u32, left: &View, right: &View) {
        let (left, right) = (left.clone(), right.clone());
        self.add(name, width, Call::Equality { left, right });
    }

    /// Adds a tidying with so many pool words and values.
    fn tidy(
        &mut self,
        name: impl Into<String>,
        width: u32,
        view: &View,
        (words, values): (usize, usize),
    ) {
        let call = Call::Tidy {
            view: view.clone(),
            out: marks_u32(words),
            values: marks_u32(values),
        };
        self.add(name, width, call);
    }

    /// Adds the five lists, each with room and `spare` words, and key equality.
    fn two_sided(&mut self, name: &str, width: u32, (left, right): (&View, &View), spare: usize) {
        for operation in OPERATIONS {
            let words = exact_words(operation, width, left, right) + spare;
            let full = format!("{}, {name}", name_of(operation));
            self.list(full, operation, width, (left, right), words);
        }
        self.equality(format!("equality, {name}"), width, left, right);
    }

    /// Adds a tidying with room and `spare` words in both buffers.
    fn roomy_tidy(&mut self, name: &str, width: u32, view: &View, spare: usize) {
        let (words, values) = exact_tidy(width, view);
        let room = (words + spare, values + spare);
        self.tidy(format!("tidy, {name}"), width, view, room);
    }

    /// Adds a list with exact room, one word less, one more, a longer tail, and no words.
    fn list_in_all_rooms(
        &mut self,
        name: &str,
        operation: Operation,
        width: u32,
        pair: (&View, &View),
    ) {
        let exact = exact_words(operation, width, pair.0, pair.1);
        for (words, room) in rooms(exact) {
            let full = format!("{name}: {room}");
            self.list(full, operation, width, pair, words);
        }
    }

    /// Adds a tidying with every pair of rooms for the pool and the value list.
    fn tidy_in_all_rooms(&mut self, name: &str, width: u32, view: &View) {
        let (words, values) = exact_tidy(width, view);
        for (words, pool_room) in rooms(words) {
            for (values, list_room) in rooms(values) {
                let full = format!("{name}: pool {pool_room}, list {list_room}");
                self.tidy(full, width, view, (words, values));
            }
        }
    }
}

/// The buffer sizes to try around an exact one, with their names, no size twice.
fn rooms(exact: usize) -> Vec<(usize, &'static str)> {
    let mut list = vec![
        (exact, "exact"),
        (exact + 1, "one word long"),
        (exact + 13, "long tail"),
    ];
    if exact > 0 {
        list.push((exact - 1, "one word short"));
    }
    if exact > 1 {
        list.push((0, "no words"));
    }
    list
}

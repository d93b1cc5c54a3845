//! A third implementation with mistakes to choose from, to see that the comparison notices each.
//!
//! It works on the entries that the reference reads from a pool. Without a mistake it agrees with the reference.

use crate::engine::{cut, Call, Engine, Input, Lent, Reference};
use lhamtrovi::{Answer, Root};
use reference::{Operation, Prefix};

/// A mistake. The first eight are the scope's list of slips; where one has two places it stands twice.
#[derive(Clone, Copy, Debug, PartialEq, Eq)]
pub enum Slip {
    /// None at all.
    None,
    /// A cover of length 0 is written as none.
    CoverLengthZero,
    /// An entry of length 0 covers nothing in the covering difference.
    LengthZeroCoversNothing,
    /// Key equality compares child bitmaps although a child is empty.
    ChildBitmaps,
    /// A right view with a deeper root is carried into every child of the left one: the bits above its node play no part.
    DeeperRightEverywhere,
    /// The covering difference forgets right entries between the node's depth and the left root.
    BetweenNodeAndLeftRoot,
    /// The covering union forgets them.
    BetweenNodeAndLeftRootInUnion,
    /// The mask of length 0 is made by shifting by 64, which shifts by 0.
    ShiftBySixtyFour,
    /// Records stand by length first.
    LengthFirst,
    /// Entries above the right view's root count as covers.
    EntriesAboveRightRoot,
    /// Root bits past the length are compared.
    StrayRootBits,
    /// A record of both sides has a cover.
    CoverOnBoth,
    /// The shortest cover is taken.
    ShortestCover,
    /// Left and right values are swapped.
    ValuesSwapped,
    /// The roots are tested before the right pool.
    RootsBeforePools,
    /// The room is rounded up.
    RoomRoundedUp,
    /// A list that does not fit is written as far as it fits.
    WritesBeforeRefusal,
    /// The words after the last record are cleared.
    TailCleared,
    /// Key equality always says yes.
    AlwaysEqual,
    /// Tidying the whole pool copies it.
    TidyCopies,
    /// Tidying gives new value indices in the place of old ones.
    TidyCountsValues,
}

/// All mistakes, and what they are called in a table.
pub const SLIPS: [(Slip, &str); 20] = [
    (
        Slip::CoverLengthZero,
        "cover length 0 taken for no cover (covering union)",
    ),
    (
        Slip::LengthZeroCoversNothing,
        "cover length 0 taken for no cover (covering difference)",
    ),
    (
        Slip::ChildBitmaps,
        "child bitmaps compared although a child is empty",
    ),
    (
        Slip::DeeperRightEverywhere,
        "a deeper right view carried into every child",
    ),
    (
        Slip::BetweenNodeAndLeftRoot,
        "a right entry between the node's depth and the left root forgotten (covering difference)",
    ),
    (
        Slip::BetweenNodeAndLeftRootInUnion,
        "the same (covering union)",
    ),
    (Slip::ShiftBySixtyFour, "a shift by 64 for length 0"),
    (Slip::LengthFirst, "sorted by length first"),
    (
        Slip::EntriesAboveRightRoot,
        "entries above the right root count as covers",
    ),
    (Slip::StrayRootBits, "root bits past the length compared"),
    (Slip::CoverOnBoth, "a cover on a record of both sides"),
    (Slip::ShortestCover, "the shortest cover taken"),
    (Slip::ValuesSwapped, "left and right values swapped"),
    (Slip::RootsBeforePools, "roots tested before the right pool"),
    (Slip::RoomRoundedUp, "room rounded up"),
    (
        Slip::WritesBeforeRefusal,
        "a list written as far as it fits, then refused",
    ),
    (Slip::TailCleared, "words after the last record cleared"),
    (Slip::AlwaysEqual, "key equality always yes"),
    (Slip::TidyCopies, "tidying copies the pool"),
    (
        Slip::TidyCountsValues,
        "new value indices in tidying's list",
    ),
];

/// The calls with one mistake.
pub struct Mutant(pub Slip);

/// An entry of a pool.
#[derive(Clone, Copy)]
struct Entry {
    prefix: Prefix,
    value: u64,
}

/// A view as the mistaken code sees it: entries inside in order, and those that lead its root.
struct Seen {
    root: Root,
    inside: Vec<Entry>,
    above: Vec<Entry>,
}

/// A record's six words.
type Record = [u64; 6];

const NO_VALUE: u64 = 4_294_967_295;
const NO_COVER: u64 = 255;
/// The smallest pool.
const EMPTY: [u32; 4] = [0, 0, 1, 0];

/// The depth of the node in which a prefix of this length lies.
fn depth(len: u32) -> u32 {
    len / 5 * 5
}

/// All entries of a good pool: the reference's union with an empty one.
fn entries(width: u32, words: &[u32]) -> Vec<Entry> {
    let whole = cut(Root::WHOLE);
    let bits = words.iter().step_by(4).map(|word| word.count_ones());
    let mut out = vec![0; 6 * bits.sum::<u32>() as usize];
    reference::list(
        Operation::Union,
        width,
        words,
        whole,
        &EMPTY,
        whole,
        &mut out,
    );
    let entry = |record: &[u64]| Entry {
        prefix: Prefix {
            key: record[0],
            len: record[1] as u32,
        },
        value: record[3],
    };
    out.chunks_exact(6).map(entry).collect()
}

/// The prefixes of a good pool's nodes.
fn places(words: &[u32]) -> Vec<Prefix> {
    let mut list = vec![Prefix::WHOLE];
    for node in 0..words.len() / 4 {
        let Prefix { key, len } = list[node];
        let child = words[4 * node + 1];
        let bits = (0..32u64).filter(|bit| child >> bit & 1 == 1);
        list.extend(bits.map(|bit| Prefix {
            key: key | bit << 59 >> len,
            len: len + 5,
        }));
    }
    list
}

impl Mutant {
    /// True if this mistake is made.
    fn makes(&self, slip: Slip) -> bool {
        self.0 == slip
    }

    /// A word whose first bits are ones.
    fn mask(&self, len: u32) -> u64 {
        match len {
            0 if self.makes(Slip::ShiftBySixtyFour) => u64::MAX,
            0 => 0,
            _ => u64::MAX << (64 - len),
        }
    }

    /// Whether one prefix leads another.
    fn leads(&self, one: Prefix, other: Prefix) -> bool {
        one.len <= other.len && other.key & self.mask(one.len) == one.key
    }

    /// The root as a prefix.
    fn root(&self, root: Root) -> Prefix {
        let key = match self.makes(Slip::StrayRootBits) {
            true => root.key,
            false => root.key & self.mask(root.len),
        };
        Prefix { key, len: root.len }
    }

    /// The entries of a view.
    fn seen(&self, width: u32, (words, root): (&[u32], Root)) -> Seen {
        let place = self.root(root);
        let (inside, others): (Vec<Entry>, Vec<Entry>) = entries(width, words)
            .into_iter()
            .partition(|entry| self.leads(place, entry.prefix));
        let above = others.into_iter().filter(|e| self.leads(e.prefix, place));
        Seen {
            root,
            inside,
            above: above.collect(),
        }
    }

    /// Whether a right entry is overlooked as a cover because it lies above the left root in the root's node.
    fn overlooks(&self, operation: Operation, left_root: Root, right: Prefix) -> bool {
        let slip = match operation {
            Operation::CoveringDifference => Slip::BetweenNodeAndLeftRoot,
            _ => Slip::BetweenNodeAndLeftRootInUnion,
        };
        let between = right.len >= depth(left_root.len) && right.len < left_root.len;
        self.makes(slip) && between
    }

    /// The cover of a left prefix in the right view.
    fn right_cover(
        &self,
        operation: Operation,
        left: &Seen,
        right: &Seen,
        p: Prefix,
    ) -> Option<Entry> {
        let mut list: Vec<Entry> = right.inside.clone();
        if self.makes(Slip::EntriesAboveRightRoot) {
            list.extend(&right.above);
        }
        list.retain(|entry| !self.overlooks(operation, left.root, entry.prefix));
        self.cover(&list, p)
    }

    /// The longest of these entries that leads a prefix.
    fn cover(&self, list: &[Entry], prefix: Prefix) -> Option<Entry> {
        let leading = list.iter().filter(|e| self.leads(e.prefix, prefix));
        let found = match self.makes(Slip::ShortestCover) {
            true => leading.min_by_key(|e| e.prefix.len),
            false => leading.max_by_key(|e| e.prefix.len),
        };
        found.copied()
    }

    /// Whether the right view removes a left prefix from a difference.
    fn removes(&self, operation: Operation, left: &Seen, right: &Seen, prefix: Prefix) -> bool {
        if self.makes(Slip::DeeperRightEverywhere)
            && self.removes_anywhere(operation, left, right, prefix)
        {
            return true;
        }
        if operation == Operation::Difference {
            return right.inside.iter().any(|e| e.prefix == prefix);
        }
        match self.right_cover(operation, left, right, prefix) {
            Some(entry) => entry.prefix.len > 0 || !self.makes(Slip::LengthZeroCoversNothing),
            None => false,
        }
    }

    /// The same with the bits above the right root's node left out, if that node is the deeper one.
    fn removes_anywhere(
        &self,
        operation: Operation,
        left: &Seen,
        right: &Seen,
        prefix: Prefix,
    ) -> bool {
        let top = depth(right.root.len);
        if top <= depth(left.root.len) || prefix.len < top {
            return false;
        }
        right.inside.iter().any(|entry| {
            let alike = match operation {
                Operation::Difference => entry.prefix.len == prefix.len,
                _ => entry.prefix.len <= prefix.len,
            };
            let differing = (entry.prefix.key ^ prefix.key) & self.mask(entry.prefix.len);
            alike && differing & !self.mask(top) == 0
        })
    }

    /// The cover of a prefix with this tag, as a covering union shows it.
    fn shown_cover(&self, tag: u64, left: &Seen, right: &Seen, prefix: Prefix) -> Option<Entry> {
        let found = match tag {
            3 if !self.makes(Slip::CoverOnBoth) => None,
            2 => self.cover(&left.inside, prefix),
            _ => self.right_cover(Operation::CoveringUnion, left, right, prefix),
        };
        found.filter(|entry| entry.prefix.len > 0 || !self.makes(Slip::CoverLengthZero))
    }

    /// The record of a prefix of the union, with its cover in a covering union.
    fn union_record(
        &self,
        operation: Operation,
        left: &Seen,
        right: &Seen,
        prefix: Prefix,
    ) -> Record {
        let value = |seen: &Seen| {
            let same = seen.inside.iter().find(|e| e.prefix == prefix);
            same.map(|e| e.value)
        };
        let (left_value, right_value) = (value(left), value(right));
        let tag = u64::from(left_value.is_some()) + 2 * u64::from(right_value.is_some());
        let cover = match operation {
            Operation::CoveringUnion => self.shown_cover(tag, left, right, prefix),
            _ => None,
        };
        let word = |own: Option<u64>| own.or(cover.map(|e| e.value)).unwrap_or(NO_VALUE);
        let mut values = [word(left_value), word(right_value)];
        if self.makes(Slip::ValuesSwapped) {
            values.reverse();
        }
        let length = cover.map_or(NO_COVER, |e| u64::from(e.prefix.len));
        let len = u64::from(prefix.len);
        [prefix.key, len, tag, values[0], values[1], length]
    }

    /// All records of a list.
    fn records(&self, operation: Operation, left: &Seen, right: &Seen) -> Vec<Record> {
        let inside = left.inside.iter().chain(&right.inside);
        let mut prefixes: Vec<Prefix> = inside.map(|e| e.prefix).collect();
        prefixes.sort();
        prefixes.dedup();
        let mut records = Vec::new();
        for prefix in prefixes {
            let record = self.union_record(operation, left, right, prefix);
            match operation {
                Operation::Union | Operation::CoveringUnion => records.push(record),
                Operation::Intersection if record[2] == 3 => records.push(record),
                Operation::Intersection => {}
                _ if record[2] == 2 || self.removes(operation, left, right, prefix) => {}
                _ => records.push([record[0], record[1], 1, record[3], NO_VALUE, NO_COVER]),
            }
        }
        if self.makes(Slip::LengthFirst) {
            records.sort_by_key(|record| (record[1], record[0]));
        }
        records
    }

    /// Writes records, or refuses them for lack of room.
    fn write(&self, records: &[Record], out: &mut [u64]) -> Answer {
        let room = match self.makes(Slip::RoomRoundedUp) {
            true => out.len().div_ceil(6),
            false => out.len() / 6,
        };
        let fits = records.len() <= room;
        if fits || self.makes(Slip::WritesBeforeRefusal) {
            for (place, record) in out.chunks_mut(6).zip(records) {
                place.copy_from_slice(&record[..place.len()]);
            }
        }
        if fits && self.makes(Slip::TailCleared) {
            out.iter_mut()
                .skip(6 * records.len())
                .for_each(|word| *word = 0);
        }
        Answer {
            number: if fits { 0 } else { 6 },
            beside: records.len() as u64,
            second: 0,
        }
    }

    /// The refusals of a call with two sides, or 0.
    fn refusal(&self, input: &Input) -> Answer {
        let lent = Lent {
            records: &mut [],
            nodes: &mut [],
            values: &mut [],
        };
        let mut answer = Reference.answer(Call::EqualKeys, input, lent);
        if self.makes(Slip::RootsBeforePools)
            && answer.number == 3
            && input.left.1.len > input.width
        {
            answer = Answer {
                number: 4,
                beside: 0,
                ..answer
            };
        }
        answer
    }

    /// Whether two views have the same prefixes.
    fn equal(&self, input: &Input, left: &Seen, right: &Seen) -> bool {
        let prefixes = |seen: &Seen| seen.inside.iter().map(|e| e.prefix).collect::<Vec<_>>();
        if self.makes(Slip::ChildBitmaps) {
            let nodes = |(words, root): (&[u32], Root)| -> Vec<Prefix> {
                let root = self.root(root);
                let below = places(words)
                    .into_iter()
                    .filter(|p| p.len > 0 && self.leads(root, *p));
                below.collect()
            };
            return prefixes(left) == prefixes(right) && nodes(input.left) == nodes(input.right);
        }
        self.makes(Slip::AlwaysEqual) || prefixes(left) == prefixes(right)
    }

    /// Tidying with its mistakes.
    fn tidy(&self, input: &Input, lent: Lent) -> Answer {
        let (words, root) = input.left;
        let Lent {
            nodes,
            values,
            records,
        } = lent;
        let lent = Lent {
            records,
            nodes: &mut *nodes,
            values: &mut *values,
        };
        let mut answer = Reference.answer(Call::Tidy, input, lent);
        if answer.number != 0 {
            return answer;
        }
        let count = words
            .iter()
            .step_by(4)
            .map(|word| word.count_ones())
            .sum::<u32>();
        let tidied: u32 = nodes[..4 * answer.beside as usize]
            .iter()
            .step_by(4)
            .map(|word| word.count_ones())
            .sum();
        if self.makes(Slip::TidyCopies)
            && root.len == 0
            && words.len() <= nodes.len()
            && count == tidied
        {
            nodes[..words.len()].copy_from_slice(words);
            answer.beside = words.len() as u64 / 4;
        }
        if self.makes(Slip::TidyCountsValues) {
            let new = (0..).zip(values.iter_mut().take(tidied as usize));
            new.for_each(|(index, value)| *value = index);
        }
        answer
    }
}

impl Engine for Mutant {
    fn answer(&self, call: Call, input: &Input, lent: Lent) -> Answer {
        match call {
            Call::CheckLeft | Call::CheckRight => return Reference.answer(call, input, lent),
            Call::Tidy => return self.tidy(input, lent),
            _ => {}
        }
        let refusal = self.refusal(input);
        if refusal.number != 0 {
            return refusal;
        }
        let left = self.seen(input.width, input.left);
        let right = self.seen(input.width, input.right);
        match call {
            Call::List(operation) => {
                let records = self.records(operation, &left, &right);
                self.write(&records, lent.records)
            }
            _ => Answer {
                number: 0,
                beside: u64::from(self.equal(input, &left, &right)),
                second: 0,
            },
        }
    }
}

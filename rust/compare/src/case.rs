//! The inputs of a comparison.

use lhamtrovi::Root;
use std::fmt;

/// A pool's words and the root under which its entries count.
#[derive(Clone, Debug, PartialEq, Eq)]
pub struct View {
    /// Any words.
    pub words: Vec<u32>,
    /// Any bits and length.
    pub root: Root,
}

impl View {
    /// A view of these words at a root's bits and length.
    pub fn new(words: Vec<u32>, (key, len): (u64, u32)) -> View {
        let root = Root { key, len };
        View { words, root }
    }
}

/// How large a buffer is, by the words that the answer needs.
#[derive(Clone, Copy, Debug, PartialEq, Eq)]
pub enum Room {
    /// So many words fewer than needed, or none.
    Less(usize),
    /// So many words more than needed.
    More(usize),
    /// So many words, whatever is needed.
    Words(usize),
}

impl Room {
    /// The buffer's words.
    pub fn words(self, needed: usize) -> usize {
        match self {
            Room::Less(fewer) => needed.saturating_sub(fewer),
            Room::More(more) => needed + more,
            Room::Words(words) => words,
        }
    }
}

/// The rooms of the three kinds of buffers.
#[derive(Clone, Copy, Debug, PartialEq, Eq)]
pub struct Rooms {
    /// Records of a list.
    pub records: Room,
    /// Nodes of a tidy pool.
    pub nodes: Room,
    /// The value list of a tidy pool.
    pub values: Room,
}

impl Rooms {
    /// Exactly what is needed.
    pub const EXACT: Rooms = Rooms {
        records: Room::More(0),
        nodes: Room::More(0),
        values: Room::More(0),
    };
}

/// Everything that the calls are made with.
#[derive(Clone, Debug, PartialEq, Eq)]
pub struct Case {
    /// What kind of case this is.
    pub family: &'static str,
    /// Any width.
    pub width: u32,
    /// The left view, which is also the one that is tidied.
    pub left: View,
    /// The right view.
    pub right: View,
    /// Lend the left pool for both sides; the right words then play no part.
    pub shared: bool,
    /// The sizes of the buffers.
    pub rooms: Rooms,
}

impl Case {
    /// The words of the right pool as they are lent.
    pub fn right_words(&self) -> &[u32] {
        match self.shared {
            true => &self.left.words,
            false => &self.right.words,
        }
    }
}

/// Writes a pool, a node to a line.
fn write_pool(f: &mut fmt::Formatter, side: &str, words: &[u32], root: Root) -> fmt::Result {
    writeln!(f, "{side} root: {:#018x}/{}", root.key, root.len)?;
    writeln!(f, "{side} pool, {} words:", words.len())?;
    for node in words.chunks(4) {
        let node: Vec<String> = node.iter().map(|word| format!("{word:#x}")).collect();
        writeln!(f, "  {}", node.join(", "))?;
    }
    Ok(())
}

impl fmt::Display for Case {
    fn fmt(&self, f: &mut fmt::Formatter) -> fmt::Result {
        writeln!(f, "family: {}", self.family)?;
        writeln!(f, "width: {}", self.width)?;
        write_pool(f, "left", &self.left.words, self.left.root)?;
        if self.shared {
            writeln!(f, "the left pool is lent for the right side too")?;
        }
        write_pool(f, "right", self.right_words(), self.right.root)
    }
}

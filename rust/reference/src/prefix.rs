//! Prefixes, their order, and which one leads another.

/// A prefix: the first `len` bits of `key`, first bit highest; the bits past `len` are 0.
///
/// The derived order is the document's: by key, then the shorter one first.
#[derive(Clone, Copy, Debug, PartialEq, Eq, PartialOrd, Ord, Hash)]
pub struct Prefix {
    pub key: u64,
    pub len: u32,
}

/// A view's root as the caller gives it: bits of `key` past `len` are ignored.
#[derive(Clone, Copy, Debug, PartialEq, Eq)]
pub struct Root {
    pub key: u64,
    pub len: u32,
}

impl Root {
    /// The root prefix: the key cut after its length.
    pub fn prefix(self) -> Prefix {
        Prefix::cut(self.key, self.len)
    }
}

impl Prefix {
    /// The prefix of length 0.
    pub const WHOLE: Prefix = Prefix { key: 0, len: 0 };

    /// The first `len` bits of `key`.
    pub fn cut(key: u64, len: u32) -> Prefix {
        let key = key & mask(len);
        Prefix { key, len }
    }

    /// True if `self` is no longer than `other` and `other` starts with its bits.
    pub fn leads(self, other: Prefix) -> bool {
        self.len <= other.len && other.key & mask(self.len) == self.key
    }

    /// The prefix that goes on with the `count` bits of `value`; the length may not pass 64.
    pub(crate) fn extend(self, count: u32, value: u32) -> Prefix {
        let len = self.len + count;
        let bits = if count == 0 {
            0
        } else {
            u64::from(value) << (64 - len)
        };
        let key = self.key | bits;
        Prefix { key, len }
    }

    /// The value of the last `count` bits; `count` is at most 5 and at most the length.
    pub(crate) fn last_bits(self, count: u32) -> u32 {
        if count == 0 {
            return 0;
        }
        let bits = self.key >> (64 - self.len) & ((1 << count) - 1);
        bits as u32
    }
}

/// A word whose first `len` bits are ones and whose other bits are zeros.
pub fn mask(len: u32) -> u64 {
    match len {
        0 => 0,
        1..=63 => u64::MAX << (64 - len),
        _ => u64::MAX,
    }
}

//! Prefixes as the published files use them: the key has as many bits as the width.

use crate::numbers::PrimInt;

/// A prefix type.
pub trait Prefix: Sized {
    /// The type of its key.
    type R: PrimInt;

    /// The key with the bits past the length cut off.
    fn mask(&self) -> Self::R;
    /// The length.
    fn prefix_len(&self) -> u8;
    /// The prefix of a key and a length.
    fn from_repr_len(key: Self::R, len: u8) -> Self;

    /// The width.
    fn num_bits() -> u32 {
        <Self::R as crate::Zero>::zero().count_zeros()
    }

    /// Whether the prefix leads the other one.
    fn contains(&self, other: &Self) -> bool {
        let mask = mask_from_prefix_len::<Self::R>(self.prefix_len());
        self.prefix_len() <= other.prefix_len() && other.mask() & mask == self.mask()
    }
}

/// A key whose first `len` bits are ones; a length of 0 must not shift by the width.
pub(crate) fn mask_from_prefix_len<R: PrimInt>(len: u8) -> R {
    let width = R::zero().count_zeros();
    match u32::from(len) {
        0 => R::zero(),
        len => !R::zero() << (width - len) as usize,
    }
}

impl<R: PrimInt> Prefix for (R, u8) {
    type R = R;

    fn mask(&self) -> R {
        self.0 & mask_from_prefix_len(self.1)
    }

    fn prefix_len(&self) -> u8 {
        self.1
    }

    fn from_repr_len(key: R, len: u8) -> Self {
        (key, len)
    }
}

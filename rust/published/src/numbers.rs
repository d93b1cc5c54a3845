//! The few traits of numbers that the published files use.

use std::ops::{BitAnd, BitOr, BitXor, Not, Shl, Shr};

/// Numbers that have a zero.
pub trait Zero: Sized {
    /// The zero.
    fn zero() -> Self;
}

/// Numbers that have a one.
pub trait One: Sized {
    /// The one.
    fn one() -> Self;
}

/// Conversions of numbers.
pub mod cast {
    /// Numbers that small numbers can be turned into.
    pub trait NumCast: Sized {
        /// The number, if it fits.
        fn from<N: Into<u64>>(number: N) -> Option<Self>;
    }
}

/// Whole numbers as rows of bits.
pub trait PrimInt:
    Copy
    + Ord
    + Zero
    + One
    + cast::NumCast
    + Not<Output = Self>
    + BitAnd<Output = Self>
    + BitOr<Output = Self>
    + BitXor<Output = Self>
    + Shl<usize, Output = Self>
    + Shr<usize, Output = Self>
{
    /// How many bits are 0.
    fn count_zeros(self) -> u32;
    /// How many bits before the first 1.
    fn leading_zeros(self) -> u32;
    /// Shifted to the left.
    fn unsigned_shl(self, count: u32) -> Self;
}

/// The traits for one type.
macro_rules! numbers {
    ($($number:ty)*) => {
        $(impl Zero for $number {
            fn zero() -> Self {
                0
            }
        }
        impl One for $number {
            fn one() -> Self {
                1
            }
        }
        impl cast::NumCast for $number {
            fn from<N: Into<u64>>(number: N) -> Option<Self> {
                <$number>::try_from(number.into()).ok()
            }
        }
        impl PrimInt for $number {
            fn count_zeros(self) -> u32 {
                <$number>::count_zeros(self)
            }
            fn leading_zeros(self) -> u32 {
                <$number>::leading_zeros(self)
            }
            fn unsigned_shl(self, count: u32) -> Self {
                self << count
            }
        })*
    };
}

numbers! { u32 u64 }

//! The calls as the archive has them: every input is taken, and the answer is three numbers.

use crate::Root;

/// What every call answers: 0 or the refusal's number, the number beside it, and a second one.
///
/// Only [`check`] uses `second`, for the number of the first fault.
#[repr(C)]
#[derive(Clone, Copy, Debug, PartialEq, Eq)]
pub struct Answer {
    /// 0, or the refusal's number.
    pub number: u32,
    /// How many were written, or what the refusal names.
    pub beside: u64,
    /// The fault's number of a check, and otherwise 0.
    pub second: u64,
}

/// A call with two sides and an output.
type ListCall = unsafe extern "C" fn(
    u32,
    *const u32,
    usize,
    u64,
    u32,
    *const u32,
    usize,
    u64,
    u32,
    *mut u64,
    usize,
) -> Answer;

extern "C" {
    fn lhamtrovi_check(width: u32, pool: *const u32, pool_words: usize) -> Answer;
    fn lhamtrovi_equal_keys(
        width: u32,
        left: *const u32,
        left_words: usize,
        left_key: u64,
        left_len: u32,
        right: *const u32,
        right_words: usize,
        right_key: u64,
        right_len: u32,
    ) -> Answer;
    fn lhamtrovi_tidy(
        width: u32,
        pool: *const u32,
        pool_words: usize,
        key: u64,
        len: u32,
        out: *mut u32,
        out_words: usize,
        values: *mut u32,
        values_words: usize,
    ) -> Answer;
}

/// The five list calls, which have one signature.
macro_rules! lists {
    ($($name:ident)*) => {
        extern "C" {
            $(fn $name(
                width: u32,
                left: *const u32,
                left_words: usize,
                left_key: u64,
                left_len: u32,
                right: *const u32,
                right_words: usize,
                right_key: u64,
                right_len: u32,
                out: *mut u64,
                out_words: usize,
            ) -> Answer;)*
        }
    };
}

lists! {
    lhamtrovi_union
    lhamtrovi_intersection
    lhamtrovi_difference
    lhamtrovi_covering_difference
    lhamtrovi_covering_union
}

/// Whether a pool is well-formed, and its first fault.
pub fn check(width: u32, pool: &[u32]) -> Answer {
    // SAFETY: a slice is valid for its length, and the call only reads it.
    unsafe { lhamtrovi_check(width, pool.as_ptr(), pool.len()) }
}

/// A list call with slices in the place of pointers.
fn list(
    call: ListCall,
    width: u32,
    (left, left_root): (&[u32], Root),
    (right, right_root): (&[u32], Root),
    out: &mut [u64],
) -> Answer {
    // SAFETY: slices are valid for their lengths, `out` is borrowed alone, and the call writes nothing else.
    unsafe {
        call(
            width,
            left.as_ptr(),
            left.len(),
            left_root.key,
            left_root.len,
            right.as_ptr(),
            right.len(),
            right_root.key,
            right_root.len,
            out.as_mut_ptr(),
            out.len(),
        )
    }
}

/// The prefixes of either view.
pub fn union(width: u32, left: (&[u32], Root), right: (&[u32], Root), out: &mut [u64]) -> Answer {
    list(lhamtrovi_union, width, left, right, out)
}

/// The prefixes of both views.
pub fn intersection(
    width: u32,
    left: (&[u32], Root),
    right: (&[u32], Root),
    out: &mut [u64],
) -> Answer {
    list(lhamtrovi_intersection, width, left, right, out)
}

/// The prefixes of the left view that are not in the right one.
pub fn difference(
    width: u32,
    left: (&[u32], Root),
    right: (&[u32], Root),
    out: &mut [u64],
) -> Answer {
    list(lhamtrovi_difference, width, left, right, out)
}

/// The prefixes of the left view that no prefix of the right one equals or leads.
pub fn covering_difference(
    width: u32,
    left: (&[u32], Root),
    right: (&[u32], Root),
    out: &mut [u64],
) -> Answer {
    list(lhamtrovi_covering_difference, width, left, right, out)
}

/// The prefixes of either view, each with its cover in the other.
pub fn covering_union(
    width: u32,
    left: (&[u32], Root),
    right: (&[u32], Root),
    out: &mut [u64],
) -> Answer {
    list(lhamtrovi_covering_union, width, left, right, out)
}

/// Whether the two views have the same prefixes: 1 beside the 0 for yes, 0 for no.
pub fn equal_keys(
    width: u32,
    (left, left_root): (&[u32], Root),
    (right, right_root): (&[u32], Root),
) -> Answer {
    // SAFETY: slices are valid for their lengths, and the call only reads them.
    unsafe {
        lhamtrovi_equal_keys(
            width,
            left.as_ptr(),
            left.len(),
            left_root.key,
            left_root.len,
            right.as_ptr(),
            right.len(),
            right_root.key,
            right_root.len,
        )
    }
}

/// The tidy pool of a view, and the old value index of each new one.
pub fn tidy(
    width: u32,
    (pool, root): (&[u32], Root),
    out: &mut [u32],
    values: &mut [u32],
) -> Answer {
    // SAFETY: slices are valid for their lengths, `out` and `values` are borrowed alone and apart.
    unsafe {
        lhamtrovi_tidy(
            width,
            pool.as_ptr(),
            pool.len(),
            root.key,
            root.len,
            out.as_mut_ptr(),
            out.len(),
            values.as_mut_ptr(),
            values.len(),
        )
    }
}

//! The public calls: the refusals in their order, then the answer.

use crate::lists::{records, same_prefixes, Operation, RECORD_WORDS};
use crate::pool::{first_fault, Entry, Fault, Pool, NODE_WORDS};
use crate::prefix::Root;
use crate::tidy::tidy_pool;

/// A call's number and the number beside it; `second` is the check's fault number, 0 elsewhere.
#[derive(Clone, Copy, Debug, PartialEq, Eq)]
pub struct Answer {
    pub number: u32,
    pub beside: u64,
    pub second: u64,
}

/// An answer without a second number.
fn answer(number: u32, beside: u64) -> Answer {
    Answer {
        number,
        beside,
        second: 0,
    }
}

/// Refusal 1 if the width isn't 32 or 64.
fn test_width(width: u32) -> Result<(), Answer> {
    match width {
        32 | 64 => Ok(()),
        _ => Err(answer(1, 0)),
    }
}

/// The pool's entries, or this refusal with the faulty node.
fn read_pool(width: u32, words: &[u32], refusal: u32) -> Result<Pool, Answer> {
    Pool::read(width, words).map_err(|fault| answer(refusal, fault.node))
}

/// This refusal if the root is longer than the width.
fn test_root(width: u32, root: Root, refusal: u32) -> Result<(), Answer> {
    if root.len > width {
        return Err(answer(refusal, 0));
    }
    Ok(())
}

/// This refusal if more is needed than there is room for.
fn test_room(needed: usize, room: usize, refusal: u32) -> Result<(), Answer> {
    if needed > room {
        return Err(answer(refusal, needed as u64));
    }
    Ok(())
}

/// The entries of two views.
type Views = (Vec<Entry>, Vec<Entry>);

/// Refusals 1 to 5 in this order, then both views.
fn read_views(
    width: u32,
    (left, left_root): (&[u32], Root),
    (right, right_root): (&[u32], Root),
) -> Result<Views, Answer> {
    test_width(width)?;
    let left_pool = read_pool(width, left, 2)?;
    let right_pool = read_pool(width, right, 3)?;
    test_root(width, left_root, 4)?;
    test_root(width, right_root, 5)?;
    Ok((left_pool.view(left_root), right_pool.view(right_root)))
}

/// The pool check alone: refusal 1, refusal 2 with node and fault, or 0 with the node count.
pub fn check(width: u32, pool: &[u32]) -> Answer {
    if let Err(refusal) = test_width(width) {
        return refusal;
    }
    match first_fault(width, pool) {
        Some(Fault { number, node }) => Answer {
            number: 2,
            beside: node,
            second: number,
        },
        None => answer(0, (pool.len() / NODE_WORDS) as u64),
    }
}

/// One of the five lists, D1 to D5, written as records into `out`.
pub fn list(
    operation: Operation,
    width: u32,
    left: &[u32],
    left_root: Root,
    right: &[u32],
    right_root: Root,
    out: &mut [u64],
) -> Answer {
    let views = read_views(width, (left, left_root), (right, right_root));
    views
        .and_then(|(left, right)| {
            let records = records(operation, &left, &right);
            test_room(records.len(), out.len() / RECORD_WORDS, 6)?;
            for (place, record) in out.chunks_exact_mut(RECORD_WORDS).zip(&records) {
                place.copy_from_slice(&record.words());
            }
            Ok(answer(0, records.len() as u64))
        })
        .unwrap_or_else(|refusal| refusal)
}

/// D6, key equality: 1 beside the 0 for yes, 0 for no.
pub fn equal_keys(
    width: u32,
    left: &[u32],
    left_root: Root,
    right: &[u32],
    right_root: Root,
) -> Answer {
    match read_views(width, (left, left_root), (right, right_root)) {
        Ok((left, right)) => answer(0, u64::from(same_prefixes(&left, &right))),
        Err(refusal) => refusal,
    }
}

/// D7, the tidy pool into `out` and the old value indices into `values`.
pub fn tidy(width: u32, pool: &[u32], root: Root, out: &mut [u32], values: &mut [u32]) -> Answer {
    try_tidy(width, pool, root, out, values).unwrap_or_else(|refusal| refusal)
}

/// Tidying with its refusals 1, 2, 4, 6, 7 as errors.
fn try_tidy(
    width: u32,
    pool: &[u32],
    root: Root,
    out: &mut [u32],
    values: &mut [u32],
) -> Result<Answer, Answer> {
    test_width(width)?;
    let pool = read_pool(width, pool, 2)?;
    test_root(width, root, 4)?;
    let tidy = tidy_pool(&pool.view(root));
    let nodes = tidy.words.len() / NODE_WORDS;
    test_room(nodes, out.len() / NODE_WORDS, 6)?;
    test_room(tidy.values.len(), values.len(), 7)?;
    out[..tidy.words.len()].copy_from_slice(&tidy.words);
    values[..tidy.values.len()].copy_from_slice(&tidy.values);
    Ok(answer(0, nodes as u64))
}

//! The jobs, each by the proved library and by fast Rust, on one pair of pools.

use lhamtrovi::{plain, Root};
use samples::{large, varied, words, Random};
use std::hint::black_box;

/// What is timed.
#[derive(Clone, Copy, PartialEq, Eq, Debug)]
pub enum Job {
    Check,
    Union,
    Intersection,
    Difference,
    CoveringDifference,
    CoveringUnion,
    /// The same with an output of just the size, so that our call counts first.
    CoveringUnionExact,
    EqualKeys,
    Tidy,
}

/// All of them; the check comes first, since the others' tables take it off.
pub const ALL: [Job; 9] = [
    Job::Check,
    Job::Union,
    Job::Intersection,
    Job::Difference,
    Job::CoveringDifference,
    Job::CoveringUnion,
    Job::CoveringUnionExact,
    Job::EqualKeys,
    Job::Tidy,
];

impl Job {
    /// The name in the table.
    pub fn name(self) -> &'static str {
        match self {
            Job::Check => "check",
            Job::Union => "union",
            Job::Intersection => "intersection",
            Job::Difference => "difference",
            Job::CoveringDifference => "covering difference",
            Job::CoveringUnion => "covering union",
            Job::CoveringUnionExact => "covering union, no spare room",
            Job::EqualKeys => "equality",
            Job::Tidy => "tidy",
        }
    }
}

/// The pools and buffers of a row.
pub struct Pools {
    width: u32,
    left: Vec<u32>,
    right: Vec<u32>,
    out: Vec<u64>,
    /// The words of the covering union.
    exact: usize,
    tidy: Vec<u32>,
    values: Vec<u32>,
}

impl Pools {
    /// A pair of pools, the left one of this many nodes.
    pub fn new(seed: u64, width: u32, nodes: usize) -> Pools {
        let mut random = Random::new(seed);
        let table = large(&mut random, width, nodes);
        let other = varied(&mut random, width, &table);
        let (left, right) = (words(&table), words(&other));
        let entries: usize = [&left, &right]
            .iter()
            .map(|w| {
                w.chunks(4)
                    .map(|n| n[0].count_ones() as usize)
                    .sum::<usize>()
            })
            .sum();
        let mut pools = Pools {
            width,
            tidy: vec![0; left.len()],
            left,
            right,
            out: vec![0; 6 * entries],
            exact: 0,
            values: vec![0; entries],
        };
        pools.exact = 6 * pools.count(Job::CoveringUnion);
        pools
    }

    /// The job by the proved library: its answer.
    fn answer(&mut self, job: Job) -> plain::Answer {
        let width = self.width;
        let left = (black_box(&self.left[..]), Root::WHOLE);
        let right = (black_box(&self.right[..]), Root::WHOLE);
        let out = &mut self.out[..];
        match job {
            Job::Check => plain::check(width, left.0),
            Job::Union => plain::union(width, left, right, out),
            Job::Intersection => plain::intersection(width, left, right, out),
            Job::Difference => plain::difference(width, left, right, out),
            Job::CoveringDifference => plain::covering_difference(width, left, right, out),
            Job::CoveringUnion => plain::covering_union(width, left, right, out),
            Job::CoveringUnionExact => {
                plain::covering_union(width, left, right, &mut out[..self.exact])
            }
            Job::EqualKeys => plain::equal_keys(width, left, left),
            Job::Tidy => plain::tidy(width, left, &mut self.tidy, &mut self.values),
        }
    }

    /// The job by fast Rust: its count.
    fn count(&mut self, job: Job) -> usize {
        let whole = |words| fast::Side {
            words,
            key: 0,
            len: 0,
        };
        let left = whole(black_box(&self.left[..]));
        let right = whole(black_box(&self.right[..]));
        let out = &mut self.out[..];
        match job {
            Job::Check => fast::check(self.width, left.words).unwrap_or(0),
            Job::Union => fast::union(left, right, out),
            Job::Intersection => fast::intersection(left, right, out),
            Job::Difference => fast::difference(left, right, out),
            Job::CoveringDifference => fast::covering_difference(left, right, out),
            Job::CoveringUnion => fast::covering_union(left, right, out),
            Job::CoveringUnionExact => fast::covering_union(left, right, &mut out[..self.exact]),
            Job::EqualKeys => usize::from(fast::equal_keys(left, left)),
            Job::Tidy => fast::tidy(left, &mut self.tidy, &mut self.values).0,
        }
    }

    /// Runs the job by the proved library.
    pub fn ours(&mut self, job: Job) {
        black_box(self.answer(job));
    }

    /// Runs the checks that our call makes by itself; the check's own row has none to take off.
    pub fn checks(&mut self, job: Job) {
        match job {
            Job::Check => {}
            Job::Tidy => {
                black_box(plain::check(self.width, black_box(&self.left)));
            }
            Job::EqualKeys => {
                black_box(plain::check(self.width, black_box(&self.left)));
                black_box(plain::check(self.width, black_box(&self.left)));
            }
            _ => {
                black_box(plain::check(self.width, black_box(&self.left)));
                black_box(plain::check(self.width, black_box(&self.right)));
            }
        }
    }

    /// Runs the job by fast Rust.
    pub fn rust(&mut self, job: Job) {
        black_box(self.count(job));
    }

    /// Both give the same count and the same buffers; a benchmark of two different jobs would say nothing.
    pub fn agree(&mut self, job: Job) {
        let mut after = Vec::new();
        for ours in [true, false] {
            self.out.fill(7);
            self.tidy.fill(7);
            self.values.fill(7);
            let count = if ours {
                let answer = self.answer(job);
                assert_eq!(answer.number, 0, "{job:?} is refused");
                answer.beside as usize
            } else {
                self.count(job)
            };
            after.push((
                count,
                self.out.clone(),
                self.tidy.clone(),
                self.values.clone(),
            ));
        }
        assert!(after[0] == after[1], "{job:?} differs");
    }
}

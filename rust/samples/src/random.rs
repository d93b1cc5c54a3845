//! A small generator of random numbers.

/// SplitMix64: any seed is good.
#[derive(Clone)]
pub struct Random(u64);

impl Random {
    /// A generator with this seed.
    pub fn new(seed: u64) -> Random {
        Random(seed)
    }

    /// A generator for one of many numbered cases; two numbers of a seed have nothing in common.
    pub fn of_case(seed: u64, number: u64) -> Random {
        let seed = Random(seed).word();
        Random(Random(seed ^ number).word())
    }

    /// The next word.
    pub fn word(&mut self) -> u64 {
        self.0 = self.0.wrapping_add(0x9e37_79b9_7f4a_7c15);
        let mut x = self.0;
        x = (x ^ x >> 30).wrapping_mul(0xbf58_476d_1ce4_e5b9);
        x = (x ^ x >> 27).wrapping_mul(0x94d0_49bb_1331_11eb);
        x ^ x >> 31
    }

    /// A number below `end`, which may not be 0.
    pub fn below(&mut self, end: usize) -> usize {
        ((self.word() >> 11) % end as u64) as usize
    }

    /// True once in `times`.
    pub fn once_in(&mut self, times: usize) -> bool {
        self.below(times) == 0
    }
}

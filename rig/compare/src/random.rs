//! Repeatable randomness, so that a finding can be found again.

/// A splitmix64 generator.
pub struct Random(u64);

impl Random {
    /// A generator from this seed on.
    pub fn new(seed: u64) -> Self {
        Self(seed)
    }

    /// The next word.
    pub fn word(&mut self) -> u64 {
        self.0 = self.0.wrapping_add(0x9E37_79B9_7F4A_7C15);
        let mut z = self.0;
        z = (z ^ (z >> 30)).wrapping_mul(0xBF58_476D_1CE4_E5B9);
        z = (z ^ (z >> 27)).wrapping_mul(0x94D0_49BB_1331_11EB);
        z ^ (z >> 31)
    }

    /// A number below `end`.
    pub fn below(&mut self, end: usize) -> usize {
        (self.word() % end as u64) as usize
    }

    /// Yes, `times` in a hundred.
    pub fn percent(&mut self, times: usize) -> bool {
        self.below(100) < times
    }

    /// One of a list.
    pub fn pick<'a, T>(&mut self, from: &'a [T]) -> &'a T {
        &from[self.below(from.len())]
    }

    /// Puts a list into any order.
    pub fn shuffle<T>(&mut self, items: &mut [T]) {
        for at in (1..items.len()).rev() {
            items.swap(at, self.below(at + 1));
        }
    }

    /// A coordinate: plain, whole, or one of the values at which floats go astray.
    pub fn coordinate(&mut self) -> f64 {
        const ODD: [f64; 20] = [
            0.0,
            -0.0,
            1.0,
            -1.0,
            0.5,
            1.0 / 3.0,
            9_007_199_254_740_993.0,
            1e16,
            -1e16,
            1e-160,
            -1e-160,
            1e154,
            1e300,
            -1e300,
            f64::MAX,
            f64::MIN_POSITIVE,
            5e-324,
            f64::INFINITY,
            f64::NEG_INFINITY,
            f64::NAN,
        ];
        match self.below(4) {
            0 => *self.pick(&ODD),
            1 => self.below(5) as f64 - 2.0,
            2 => (self.below(2_097_153) as f64) - 1_048_576.0,
            _ => (self.word() >> 11) as f64 / (1u64 << 53) as f64 - 0.5,
        }
    }
}

//! Numbers that look random.

/// Numbers that look random, from a seed (the generator xorshift64* of Marsaglia and Vigna).
pub struct Random {
    state: u64,
}

impl Random {
    /// The numbers of a seed.
    pub fn new(seed: u64) -> Random {
        Random {
            state: seed.wrapping_mul(2_862_933_555_777_941_757) | 1,
        }
    }

    /// A number below a bound, or 0 where the bound is 0.
    pub fn below(&mut self, bound: usize) -> usize {
        let mut x = self.state;
        x ^= x >> 12;
        x ^= x << 25;
        x ^= x >> 27;
        self.state = x;
        let number = x.wrapping_mul(2_685_821_657_736_338_717) >> 33;
        (number as usize).checked_rem(bound).unwrap_or(0)
    }

    /// Yes or no, each as often as the other.
    pub fn truth(&mut self) -> bool {
        self.below(2) == 0
    }

    /// Whether one in so many.
    pub fn one_in(&mut self, count: usize) -> bool {
        self.below(count) == 0
    }

    /// A pair of numbers below a bound.
    pub fn pair(&mut self, bound: usize) -> (usize, usize) {
        (self.below(bound), self.below(bound))
    }
}

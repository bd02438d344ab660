//! A seeded source of numbers (splitmix64), the same on every machine.

pub struct Random {
    state: u64,
}

impl Random {
    pub fn seeded(seed: u64) -> Self {
        Self { state: seed }
    }

    pub fn bits(&mut self) -> u64 {
        self.state = self.state.wrapping_add(0x9e3779b97f4a7c15);
        let z = self.state;
        let z = (z ^ (z >> 30)).wrapping_mul(0xbf58476d1ce4e5b9);
        let z = (z ^ (z >> 27)).wrapping_mul(0x94d049bb133111eb);
        z ^ (z >> 31)
    }

    pub fn below(&mut self, count: u64) -> u64 {
        self.bits() % count
    }

    pub fn one_in(&mut self, count: u64) -> bool {
        self.below(count) == 0
    }

    pub fn pick<T: Copy>(&mut self, choices: &[T]) -> T {
        choices[self.below(choices.len() as u64) as usize]
    }

    /// From 0 up to but not including 1.
    pub fn unit(&mut self) -> f64 {
        (self.bits() >> 11) as f64 / 9007199254740992.0
    }

    pub fn between(&mut self, low: f64, high: f64) -> f64 {
        let value = low + (high - low) * self.unit();
        value.clamp(low, high)
    }

    /// Evenly over the bit patterns from `low` to `high`, both above 0: about evenly over
    /// the logarithm.
    pub fn log_between(&mut self, low: f64, high: f64) -> f64 {
        let (low, high) = (low.to_bits(), high.to_bits());
        f64::from_bits(low + self.below(high - low + 1))
    }

    pub fn signed(&mut self, value: f64) -> f64 {
        if self.one_in(2) {
            -value
        } else {
            value
        }
    }

    /// About normal, with deviation near 1.
    pub fn noise(&mut self) -> f64 {
        let sum: f64 = (0..6).map(|_| self.unit()).sum();
        (sum - 3.0) * 1.4
    }

    pub fn noise_vector(&mut self, size: f64) -> [f64; 3] {
        [
            size * self.noise(),
            size * self.noise(),
            size * self.noise(),
        ]
    }
}

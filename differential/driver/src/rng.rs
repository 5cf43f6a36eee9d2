//! xorshift64*, so that a seed gives the same calls everywhere.

pub struct Rng(u64);

impl Rng {
    /// One generator for each run of a seed: the two numbers are mixed by splitmix64, so that near seeds don't look alike.
    pub fn of(seed: u64, run: u64) -> Self {
        let mut z = seed.wrapping_add(run.wrapping_mul(0x9e3779b97f4a7c15)).wrapping_add(0x9e3779b97f4a7c15);
        z = (z ^ (z >> 30)).wrapping_mul(0xbf58476d1ce4e5b9);
        z = (z ^ (z >> 27)).wrapping_mul(0x94d049bb133111eb);
        Rng((z ^ (z >> 31)) | 1)
    }

    pub fn word(&mut self) -> u64 {
        self.0 ^= self.0 >> 12;
        self.0 ^= self.0 << 25;
        self.0 ^= self.0 >> 27;
        self.0.wrapping_mul(0x2545f4914f6cdd1d)
    }

    /// A number below n.
    pub fn below(&mut self, n: usize) -> usize {
        ((self.word() >> 32) * n as u64 >> 32) as usize
    }

    /// A number from a to b, both included.
    pub fn from(&mut self, a: usize, b: usize) -> usize {
        a + self.below(b - a + 1)
    }

    /// True n times in a hundred.
    pub fn percent(&mut self, n: usize) -> bool {
        self.below(100) < n
    }

    pub fn pick<T: Copy>(&mut self, from: &[T]) -> T {
        from[self.below(from.len())]
    }

    /// n, or one or two off.
    pub fn about(&mut self, n: usize) -> usize {
        (n + self.below(4)).saturating_sub(1 + self.below(2))
    }
}

//! A seeded generator (SplitMix64) with what the runs draw from it. The same seed gives the same runs on every machine.

pub struct Rng(u64);

impl Rng {
    pub fn new(seed: u64) -> Rng {
        Rng(seed)
    }

    pub fn next(&mut self) -> u64 {
        self.0 = self.0.wrapping_add(0x9e37_79b9_7f4a_7c15);
        let mut z = self.0;
        z = (z ^ (z >> 30)).wrapping_mul(0xbf58_476d_1ce4_e5b9);
        z = (z ^ (z >> 27)).wrapping_mul(0x94d0_49bb_1331_11eb);
        z ^ (z >> 31)
    }

    /// A number below n, for small n.
    pub fn below(&mut self, n: u64) -> u64 {
        (self.next() >> 32) * n >> 32
    }

    /// True once in n.
    pub fn once_in(&mut self, n: u64) -> bool {
        self.below(n) == 0
    }

    pub fn pick<T: Copy>(&mut self, from: &[T]) -> T {
        from[self.below(from.len() as u64) as usize]
    }

    /// Nearly normal noise with this deviation, as a whole number: a sum of twelve even draws.
    pub fn noise(&mut self, deviation: f64) -> i32 {
        let sum: f64 = (0..12).map(|_| (self.next() >> 40) as f64 / (1u64 << 24) as f64).sum();
        ((sum - 6.0) * deviation).round() as i32
    }
}

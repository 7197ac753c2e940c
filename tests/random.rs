//! Random numbers from a seed (splitmix64).

/// The generator's state.
pub struct Random(u64);

impl Random {
    /// A generator for one of many runs of a seed.
    pub fn new(seed: u64, run: u64) -> Random {
        let mut seeded = Random(seed);
        Random(seeded.next() ^ run.wrapping_mul(0xd134_2543_de82_ef95))
    }

    /// The next number.
    pub fn next(&mut self) -> u64 {
        self.0 = self.0.wrapping_add(0x9e37_79b9_7f4a_7c15);
        let mut z = self.0;
        z = (z ^ (z >> 30)).wrapping_mul(0xbf58_476d_1ce4_e5b9);
        z = (z ^ (z >> 27)).wrapping_mul(0x94d0_49bb_1331_11eb);
        z ^ (z >> 31)
    }

    /// A number below a bound.
    pub fn below(&mut self, bound: u64) -> u64 {
        self.next() % bound
    }
}

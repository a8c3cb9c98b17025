//! A small random number generator (splitmix64).

pub struct Rng(u64);

impl Rng {
    pub fn new(seed: u64) -> Rng {
        Rng(seed)
    }

    /// The generator of experiment `index` of a seed.
    pub fn for_experiment(seed: u64, index: u64) -> Rng {
        let start = Rng(seed).draw();
        Rng(start ^ Rng(index.wrapping_mul(0xD1B5_4A32_D192_ED03)).draw())
    }

    pub fn draw(&mut self) -> u64 {
        self.0 = self.0.wrapping_add(0x9E37_79B9_7F4A_7C15);
        let mut z = self.0;
        z = (z ^ (z >> 30)).wrapping_mul(0xBF58_476D_1CE4_E5B9);
        z = (z ^ (z >> 27)).wrapping_mul(0x94D0_49BB_1331_11EB);
        z ^ (z >> 31)
    }

    pub fn byte(&mut self) -> u8 {
        (self.draw() >> 32) as u8
    }

    pub fn word(&mut self) -> u16 {
        (self.draw() >> 32) as u16
    }

    /// A number below `n`, which is above 0.
    pub fn below(&mut self, n: u64) -> u64 {
        self.draw() % n
    }

    /// A number from `low` to `high`, both included.
    pub fn within(&mut self, low: u64, high: u64) -> u64 {
        low + self.below(high - low + 1)
    }

    /// True in `percent` of 100 cases.
    pub fn chance(&mut self, percent: u64) -> bool {
        self.below(100) < percent
    }

    pub fn pick<T: Copy>(&mut self, from: &[T]) -> T {
        from[self.below(from.len() as u64) as usize]
    }

    /// A number below 2^`bits`, all sizes alike.
    pub fn sized(&mut self, bits: u64) -> u64 {
        let size = self.below(bits + 1);
        self.draw() & ((1u64 << size) - 1)
    }
}

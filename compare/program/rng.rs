//! Inputs from a seed: case i of a part is the same whatever ran before it.

pub struct Rng(u64);

impl Rng {
    pub fn new(seed: u64, part: &str, case: u64) -> Self {
        let mut state = seed ^ 0x9e37_79b9_7f4a_7c15;
        for b in part.bytes() {
            state = (state ^ b as u64).wrapping_mul(0x1000_0000_01b3);
        }
        let mut rng = Rng(state ^ case.wrapping_mul(0xd134_2543_de82_ef95));
        rng.bits();
        rng
    }
    pub fn bits(&mut self) -> u64 {
        self.0 = self.0.wrapping_add(0x9e37_79b9_7f4a_7c15);
        let mut z = self.0;
        z = (z ^ (z >> 30)).wrapping_mul(0xbf58_476d_1ce4_e5b9);
        z = (z ^ (z >> 27)).wrapping_mul(0x94d0_49bb_1331_11eb);
        z ^ (z >> 31)
    }
    /// 0 .. n - 1.
    pub fn below(&mut self, n: u64) -> u64 {
        ((self.bits() as u128 * n as u128) >> 64) as u64
    }
    pub fn one_in(&mut self, n: u64) -> bool {
        self.below(n) == 0
    }
    pub fn unit(&mut self) -> f64 {
        (self.bits() >> 11) as f64 / (1u64 << 53) as f64
    }
    pub fn between(&mut self, low: f64, high: f64) -> f64 {
        low + (high - low) * self.unit()
    }
    pub fn pick<T: Copy>(&mut self, from: &[T]) -> T {
        from[self.below(from.len() as u64) as usize]
    }
}

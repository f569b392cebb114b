//! The one generator of everything that is drawn here: the same list on every machine.

pub struct Draw(u32);

impl Draw {
    pub fn new(seed: u32) -> Self {
        Self(seed)
    }

    /// A number below `m`, at most 65,536: one step, then the upper half of the state modulo `m`.
    pub fn below(&mut self, m: u32) -> u32 {
        self.0 = self.0.wrapping_mul(1_664_525).wrapping_add(1_013_904_223);
        (self.0 >> 16) % m
    }

    pub fn bit(&mut self) -> bool {
        self.below(2) == 1
    }

    pub fn bytes(&mut self, length: usize) -> Vec<u8> {
        (0..length).map(|_| self.below(256) as u8).collect()
    }

    /// Any 32 bits.
    pub fn word(&mut self) -> u32 {
        self.below(1 << 16) << 16 | self.below(1 << 16)
    }

    /// From `low` to `high`, both among them, less than 65,536 apart.
    pub fn between(&mut self, low: i32, high: i32) -> i32 {
        low + self.below((high - low + 1) as u32) as i32
    }

    pub fn pick<T: Copy>(&mut self, of: &[T]) -> T {
        of[self.below(of.len() as u32) as usize]
    }
}

//! Bits to ask about, highest first in each byte.

use crate::draw::Draw;

#[derive(Clone, Default)]
pub struct Bits(pub Vec<bool>);

impl Bits {
    /// Zero to any number of drawn bits.
    pub fn drawn(draw: &mut Draw, length: usize) -> Self {
        Self((0..length).map(|_| draw.bit()).collect())
    }

    pub fn len(&self) -> usize {
        self.0.len()
    }

    /// The universal code of `k`: the places of k + 1 below its highest, each behind a 0, then a 1.
    pub fn code(mut self, k: u32) -> Self {
        let raised = u64::from(k) + 1;
        for place in (0..raised.ilog2()).rev() {
            self.0.extend([false, raised >> place & 1 == 1]);
        }
        self.0.push(true);
        self
    }

    /// `data` behind a 0 each, without the closing 1.
    pub fn unended(mut self, data: &[bool]) -> Self {
        for &bit in data {
            self.0.extend([false, bit]);
        }
        self
    }

    pub fn then(mut self, more: &Self) -> Self {
        self.0.extend(&more.0);
        self
    }

    pub fn first(&self, length: usize) -> Self {
        Self(self.0[..length].to_vec())
    }

    /// Whole bytes, the last filled with 0 bits.
    pub fn bytes(&self) -> Vec<u8> {
        let byte = |eight: &[bool]| eight.iter().enumerate().map(|(i, &b)| u8::from(b) << (7 - i)).sum();
        self.0.chunks(8).map(byte).collect()
    }

    /// These bits from place `offset` of a slice on; drawn bits stand before them and up to a whole byte behind.
    pub fn at(&self, offset: usize, draw: &mut Draw) -> (Vec<u8>, u64) {
        let ahead = Self::drawn(draw, offset).then(self);
        let behind = Self::drawn(draw, (8 - ahead.len() % 8) % 8);
        (ahead.then(&behind).bytes(), offset as u64)
    }

    /// These bits as the last of a slice; fewer than eight drawn bits stand before them.
    pub fn at_end(&self, draw: &mut Draw) -> (Vec<u8>, u64) {
        self.at((8 - self.len() % 8) % 8, draw)
    }
}

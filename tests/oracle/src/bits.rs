//! Bits put together one by one.
use crate::check_sequence;
use crate::prng::Prng;

/// A list of bits.
#[derive(Clone, Default)]
pub struct Bits {
    bits: Vec<bool>,
}

impl Bits {
    /// One bit more.
    pub fn push(&mut self, bit: bool) {
        self.bits.push(bit);
    }

    /// The low `width` bits of a value, the highest first.
    pub fn push_value(&mut self, value: u32, width: usize) {
        for at in (0..width).rev() {
            self.push(value >> at & 1 == 1);
        }
    }

    /// Others behind them.
    pub fn extend(&mut self, others: &Bits) {
        self.bits.extend(&others.bits);
    }

    /// Bits of no meaning: random ones, or all the same.
    pub fn push_random(&mut self, count: usize, prng: &mut Prng) {
        let style = prng.below(8);
        for _ in 0..count {
            self.push(match style {
                0 => false,
                1 => true,
                _ => prng.once_in(2),
            });
        }
    }

    /// How many.
    pub fn len(&self) -> usize {
        self.bits.len()
    }

    /// Only the first `count` of them.
    pub fn cut(&mut self, count: usize) {
        self.bits.truncate(count);
    }

    /// Turns one round.
    pub fn flip(&mut self, at: usize) {
        self.bits[at] = !self.bits[at];
    }

    /// The check sequence over the bits from `from` on, behind them.
    pub fn push_fcs(&mut self, from: usize) {
        let fcs = check_sequence::over(&self.bytes(), from, self.len());
        self.push_value(fcs, 32);
    }

    /// In bytes, the first bit of a byte its highest, spare bits zero.
    pub fn bytes(&self) -> Vec<u8> {
        let byte = |eight: &[bool]| eight.iter().enumerate().fold(0, |sum, (at, &bit)| sum | (bit as u8) << (7 - at));
        self.bits.chunks(8).map(byte).collect()
    }
}

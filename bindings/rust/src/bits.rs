//! SDUs and frames, in lent bytes.
use crate::DoesNotFit;

/// Bits in lent bytes, from the highest bit of the first byte on.
#[derive(Clone, Copy, Debug)]
pub struct Bits<'a> {
    bytes: &'a [u8],
    len: u16,
}

impl<'a> Bits<'a> {
    /// The first `len` bits of the bytes, unless there are fewer, or `len` is over 65,535.
    ///
    /// Bytes behind them are left out. Bits behind them in their last byte may be anything: the link takes them as zero.
    pub fn new(bytes: &'a [u8], len: usize) -> Result<Bits<'a>, DoesNotFit> {
        let bytes = bytes.get(..len.div_ceil(8)).ok_or(DoesNotFit::Bytes)?;
        let len = u16::try_from(len).map_err(|_| DoesNotFit::Bits)?;
        Ok(Bits { bytes, len })
    }

    /// How many bits these are.
    pub fn len(self) -> usize {
        usize::from(self.len)
    }

    /// Are there none?
    pub fn is_empty(self) -> bool {
        self.len == 0
    }

    /// The bytes that hold them, no more. In a record the spare bits of the last one are zero.
    pub fn bytes(self) -> &'a [u8] {
        self.bytes
    }

    /// The bits, the first one first.
    pub fn iter(self) -> impl Iterator<Item = bool> + 'a {
        let bits = self.bytes.iter().flat_map(|byte| (0..8).map(move |i| byte << i & 0x80 != 0));
        bits.take(self.len())
    }
}

impl PartialEq for Bits<'_> {
    fn eq(&self, other: &Bits<'_>) -> bool {
        self.iter().eq(other.iter())
    }
}

impl Eq for Bits<'_> {}

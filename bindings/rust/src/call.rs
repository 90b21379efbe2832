//! The bytes of a call.
use crate::{Bits, Block, TetraAddress};

/// The most bytes that a request can have: tag and length, 23 bytes up to its block, 255 of block, and 65,535 bits counted.
const MOST: usize = 3 + 23 + 255 + 2 + 8192;

/// A call put together in place: tag, length, value.
pub struct Call {
    bytes: [u8; MOST],
    len: usize,
}

impl Call {
    /// Room for a call.
    pub fn new() -> Call {
        Call {
            bytes: [0; MOST],
            len: 0,
        }
    }

    /// Begins a call with this tag.
    pub fn begin(&mut self, tag: u8) {
        self.bytes[0] = tag;
        self.len = 3;
    }

    /// The whole call.
    pub fn bytes(&mut self) -> &[u8] {
        let value = (self.len - 3) as u16;
        self.bytes[1..3].copy_from_slice(&value.to_be_bytes());
        &self.bytes[..self.len]
    }

    /// These bytes next; numbers go big-endian.
    pub fn put(&mut self, bytes: &[u8]) -> &mut Call {
        self.bytes[self.len..][..bytes.len()].copy_from_slice(bytes);
        self.len += bytes.len();
        self
    }

    /// SSI and type next.
    pub fn put_address(&mut self, address: TetraAddress) -> &mut Call {
        self.put(&address.ssi().to_be_bytes()[1..]).put(&[address.ssi_type() as u8])
    }

    /// A block's length and its bytes next.
    pub fn put_block(&mut self, block: Block<'_>) -> &mut Call {
        self.put(&[block.bytes().len() as u8]).put(block.bytes())
    }

    /// The count of bits and the bits next, with the spare bits zero.
    pub fn put_bits(&mut self, bits: Bits<'_>) -> &mut Call {
        let count = bits.len() as u16;
        self.put(&count.to_be_bytes()).put(bits.bytes());
        let spare = bits.bytes().len() * 8 - bits.len();
        self.bytes[self.len - 1] &= 0xff << spare;
        self
    }
}

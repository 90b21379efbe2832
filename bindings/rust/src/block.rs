//! Pass-through blocks.
use crate::DoesNotFit;

/// A pass-through block: fields that the link only passes on. The engine takes up to 64 bytes.
#[derive(Clone, Copy, Debug, Default, PartialEq, Eq)]
pub struct Block<'a> {
    bytes: &'a [u8],
}

impl<'a> Block<'a> {
    /// The block of these bytes, unless there are more than 255.
    pub fn new(bytes: &'a [u8]) -> Result<Block<'a>, DoesNotFit> {
        if bytes.len() > 255 {
            return Err(DoesNotFit::Block);
        }
        Ok(Block { bytes })
    }

    /// Its bytes.
    pub fn bytes(self) -> &'a [u8] {
        self.bytes
    }
}

//! Frames that came in, in words, with whatever values they have.
use crate::pdus::{self, Pdu};
use crate::reader::Reader;
use crate::words::{Address, Block, Carrier, Ids};
use std::fmt::{Display, Formatter, Result};
use wipturay::Bits;

/// A frame.
pub struct Frame<'a> {
    address: Address,
    carrier: Carrier,
    ids: Ids,
    block: &'a [u8],
    pdu: Bits<'a>,
}

impl<'a> Frame<'a> {
    /// Takes a frame off the front of a value.
    pub fn take(value: &mut Reader<'a>) -> Option<Frame<'a>> {
        Some(Frame {
            address: Address {
                ssi: value.three()?,
                ssi_type: value.one()?,
            },
            carrier: Carrier(value.two()?),
            ids: Ids(value.four()?, value.four()?),
            block: value.block()?,
            pdu: value.bits()?,
        })
    }

    /// The SSI that it came from.
    pub fn ssi(&self) -> u32 {
        self.address.ssi
    }

    /// Its N(S), if it has one.
    pub fn ns(&self) -> Option<bool> {
        pdus::ns(self.pdu)
    }
}

impl Display for Frame<'_> {
    fn fmt(&self, f: &mut Formatter<'_>) -> Result {
        let Frame {
            address,
            carrier,
            ids,
            block,
            pdu,
        } = self;
        write!(f, "{address}, {carrier}, {ids}, {}, {}", Block(block), Pdu(*pdu))
    }
}

//! Requests in words, with whatever values they have: the binding's own requests cannot hold all of them.
use crate::reader::Reader;
use crate::words::{Address, Block, Carrier, Ids, Mask, Packed, stealing};
use std::fmt::{Display, Formatter, Result};
use wipturay::Bits;

/// A data or unitdata request.
pub struct Request<'a> {
    address: Address,
    given: u8,
    carrier: u16,
    ids: Ids,
    handle: u32,
    flags: u8,
    mask: u8,
    receipt: u8,
    block: &'a [u8],
    sdu: Bits<'a>,
}

impl<'a> Request<'a> {
    /// Takes a request off the front of a value.
    pub fn take(value: &mut Reader<'a>) -> Option<Request<'a>> {
        Some(Request {
            address: Address {
                ssi: value.three()?,
                ssi_type: value.one()?,
            },
            given: value.one()?,
            carrier: value.two()?,
            ids: Ids(value.four()?, value.four()?),
            handle: value.four()?,
            flags: value.one()?,
            mask: value.one()?,
            receipt: value.one()?,
            block: value.block()?,
            sdu: value.bits()?,
        })
    }

    /// The carrier that it gives, or the main carrier.
    fn put_carrier(&self, f: &mut Formatter<'_>) -> Result {
        match (self.given, self.carrier) {
            (1, carrier) => write!(f, "{}", Carrier(carrier)),
            (0, 0) => f.write_str("main carrier"),
            (given, carrier) => write!(f, "carrier-given {given} and {}", Carrier(carrier)),
        }
    }

    /// The flags, each by its name, and the mask.
    fn put_flags(&self, f: &mut Formatter<'_>) -> Result {
        let [steals, fcs, masked] = [1, 2, 4].map(|flag| self.flags & flag != 0);
        write!(f, "flags {}: {}, ", self.flags, stealing(steals))?;
        f.write_str(if fcs { "FCS, " } else { "no FCS, " })?;
        match (masked, self.mask) {
            (true, mask) => write!(f, "{}", Mask(Some(mask))),
            (false, 0) => write!(f, "{}", Mask(None)),
            (false, mask) => write!(f, "no mask flag but mask {mask}"),
        }
    }
}

impl Display for Request<'_> {
    fn fmt(&self, f: &mut Formatter<'_>) -> Result {
        write!(f, "{}, ", self.address)?;
        self.put_carrier(f)?;
        write!(f, ", {}, handle {}, receipt {}, ", self.ids, self.handle, self.receipt)?;
        self.put_flags(f)?;
        write!(f, ", {}, SDU of {}", Block(self.block), Packed::new(self.sdu.iter()))
    }
}

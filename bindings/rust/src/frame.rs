//! Frames that came in.
use crate::call::Call;
use crate::{Bits, Block, TetraAddress};

/// A frame that came in, for [`Link::frame`](crate::Link::frame).
#[derive(Clone, Copy, Debug)]
pub struct Frame<'a> {
    /// Whom it came from.
    pub main_address: TetraAddress,
    /// The carrier that it came on.
    pub carrier_num: u16,
    /// Link id.
    pub link_id: u32,
    /// Endpoint id.
    pub endpoint_id: u32,
    /// What the link passes on.
    pub block: Block<'a>,
    /// The PDU, up to 2,633 bits; with the FCS flag, its check bits are the last 32.
    pub pdu: Bits<'a>,
}

impl<'a> Frame<'a> {
    /// A frame with the rest zero or empty.
    pub fn new(main_address: TetraAddress, carrier_num: u16, pdu: Bits<'a>) -> Frame<'a> {
        Frame {
            main_address,
            carrier_num,
            link_id: 0,
            endpoint_id: 0,
            block: Block::default(),
            pdu,
        }
    }

    /// Puts it into a call.
    pub(crate) fn put(&self, call: &mut Call) {
        call.put_address(self.main_address)
            .put(&self.carrier_num.to_be_bytes())
            .put(&self.link_id.to_be_bytes())
            .put(&self.endpoint_id.to_be_bytes())
            .put_block(self.block)
            .put_bits(self.pdu);
    }
}

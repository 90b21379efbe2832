//! Requests to send.
use crate::call::Call;
use crate::{Bits, Block, TetraAddress};

/// An SDU to be sent, for [`Link::data_request`](crate::Link::data_request) and
/// [`Link::unitdata_request`](crate::Link::unitdata_request).
#[derive(Clone, Copy, Debug)]
pub struct Request<'a> {
    /// Whom it goes to.
    pub main_address: TetraAddress,
    /// The carrier to send it on; without one it is the main carrier.
    pub carrier_num: Option<u16>,
    /// Link id.
    pub link_id: u32,
    /// Endpoint id.
    pub endpoint_id: u32,
    /// Handle of the request.
    pub req_handle: u32,
    /// May it steal?
    pub stealing_permission: bool,
    /// FCS flag: the frame then ends with the check sequence of its SDU, 32 bits. BL-UDATA has neither.
    pub fcs_flag: bool,
    /// Timeslot mask, under 16; bit 0 is timeslot 1.
    pub mask: Option<u8>,
    /// The number of its receipt, under 128. It is held until the receipt is released.
    pub receipt: u8,
    /// What the link passes on.
    pub block: Block<'a>,
    /// The SDU, up to 2,595 bits.
    pub tl_sdu: Bits<'a>,
}

impl<'a> Request<'a> {
    /// A request with the rest zero, empty or absent.
    pub fn new(main_address: TetraAddress, receipt: u8, tl_sdu: Bits<'a>) -> Request<'a> {
        Request {
            main_address,
            carrier_num: None,
            link_id: 0,
            endpoint_id: 0,
            req_handle: 0,
            stealing_permission: false,
            fcs_flag: false,
            mask: None,
            receipt,
            block: Block::default(),
            tl_sdu,
        }
    }

    /// Puts it into a call.
    pub(crate) fn put(&self, call: &mut Call) {
        let flags = u8::from(self.stealing_permission) | u8::from(self.fcs_flag) << 1 | u8::from(self.mask.is_some()) << 2;
        call.put_address(self.main_address)
            .put(&[self.carrier_num.is_some().into()])
            .put(&self.carrier_num.unwrap_or(0).to_be_bytes())
            .put(&self.link_id.to_be_bytes())
            .put(&self.endpoint_id.to_be_bytes())
            .put(&self.req_handle.to_be_bytes())
            .put(&[flags, self.mask.unwrap_or(0), self.receipt])
            .put_block(self.block)
            .put_bits(self.tl_sdu);
    }
}

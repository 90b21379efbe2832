//! Document 01's records of the messages that the Rust gives.
use tetra_core::tetra_entities::TetraEntity;
use tetra_core::{BitBuffer, Sap, SsiType, TetraAddress, TxReporter};
use tetra_saps::tma::TmaUnitdataReq;
use tetra_saps::{PassOn, SapMsg, SapMsgInner};

/// Fields of a record, in order.
struct Fields {
    bytes: Vec<u8>,
}

impl Fields {
    /// A record of this kind for an address.
    fn new(kind: u8, address: &TetraAddress) -> Fields {
        let mut fields = Fields { bytes: Vec::new() };
        fields.put(0x01, &[kind]);
        fields.put(0x02, &address.ssi.to_be_bytes()[1..]);
        fields.put(0x03, &[if address.ssi_type == SsiType::Gssi { 2 } else { 1 }]);
        fields
    }

    /// One field more.
    fn put(&mut self, tag: u8, value: &[u8]) {
        self.bytes.push(tag);
        self.bytes.extend((value.len() as u16).to_be_bytes());
        self.bytes.extend(value);
    }

    /// The field of the bits that are left in a buffer.
    fn put_bits(&mut self, buffer: &BitBuffer) {
        let mut buffer = buffer.clone();
        let count = buffer.get_len_remaining();
        let mut value = (count as u16).to_be_bytes().to_vec();
        let mut left = count;
        while left > 0 {
            let taken = left.min(8);
            value.push((buffer.read_bits(taken).unwrap() << (8 - taken)) as u8);
            left -= taken;
        }
        self.put(0x0c, &value);
    }

    /// The field of a pass-through block.
    fn put_block(&mut self, pass_on: &PassOn) {
        self.put(0x0b, &pass_on.bytes[..pass_on.len as usize]);
    }
}

/// The record of a message; `receipt_of` finds the number of the receipt that a reporter reports on.
pub fn of(message: &SapMsg, receipt_of: impl Fn(&TxReporter) -> Option<u8>) -> Result<Vec<u8>, String> {
    let way = (message.sap, message.src, message.dest);
    match &message.msg {
        SapMsgInner::TmaUnitdataReq(down) if way == (Sap::TmaSap, TetraEntity::Llc, TetraEntity::Umac) => {
            down_record(down, receipt_of)
        }
        SapMsgInner::TlaTlDataIndBl(up) if way == (Sap::TlaSap, TetraEntity::Llc, TetraEntity::Mle) => {
            let pass_on = up.chan_info.ok_or("what goes up has lost its block")?;
            Ok(up_record(4, &up.main_address, up.link_id, up.endpoint_id, &pass_on, up.fcs_flag, up.tl_sdu.as_ref()))
        }
        SapMsgInner::TlaTlUnitdataIndBl(up) if way == (Sap::TlaSap, TetraEntity::Llc, TetraEntity::Mle) => {
            let pass_on = up.chan_info.ok_or("what goes up has lost its block")?;
            Ok(up_record(5, &up.main_address, up.link_id, up.endpoint_id, &pass_on, up.fcs_flag, up.tl_sdu.as_ref()))
        }
        _ => Err("the Rust gave a message that is none of the five kinds".into()),
    }
}

/// The record of a message that goes down: without a reporter a reply, else by its header acknowledged or not.
fn down_record(down: &TmaUnitdataReq, receipt_of: impl Fn(&TxReporter) -> Option<u8>) -> Result<Vec<u8>, String> {
    let header = down.pdu.peek_bits(4).ok_or("a message without a header")?;
    let is_acknowledged = header & 3 < 2;
    let kind = match (&down.tx_reporter, is_acknowledged) {
        (None, _) => 2,
        (Some(_), true) => 1,
        (Some(_), false) => 3,
    };
    let mut fields = Fields::new(kind, &down.main_address);
    fields.put(0x04, &down.carrier_num.ok_or("a message without a carrier")?.to_be_bytes());
    fields.put(0x05, &down.link_id.to_be_bytes());
    fields.put(0x06, &down.endpoint_id.to_be_bytes());
    fields.put(0x07, &down.req_handle.to_be_bytes());
    fields.put(0x08, &[down.stealing_permission as u8]);
    let has_mask = match &down.data_category {
        Some(pass_on) => pass_on.has_mask,
        None => down.chan_alloc.is_some(),
    };
    if has_mask {
        let wanted = down.chan_alloc.as_ref().ok_or("a mask that got lost")?;
        let mask = (0..4).fold(0, |mask, slot| mask | (wanted.timeslots[slot] as u8) << slot);
        fields.put(0x09, &[mask]);
    }
    match (&down.tx_reporter, &down.data_category) {
        (None, None) => {}
        (Some(reporter), Some(pass_on)) => {
            if reporter.is_acknowledged_service() != is_acknowledged {
                return Err("a receipt that expects what its message does not bring".into());
            }
            fields.put(0x0a, &[receipt_of(reporter).ok_or("a receipt that nobody holds")?]);
            fields.put_block(pass_on);
        }
        _ => return Err("a message with a block and no receipt, or the reverse".into()),
    }
    fields.put_bits(&down.pdu);
    Ok(fields.bytes)
}

/// The record of what goes up.
fn up_record(
    kind: u8,
    address: &TetraAddress,
    link: u32,
    endpoint: u32,
    pass_on: &PassOn,
    has_fcs: bool,
    sdu: Option<&BitBuffer>,
) -> Vec<u8> {
    let mut fields = Fields::new(kind, address);
    fields.put(0x05, &link.to_be_bytes());
    fields.put(0x06, &endpoint.to_be_bytes());
    fields.put_block(pass_on);
    fields.put(0x0d, &[has_fcs as u8]);
    if let Some(sdu) = sdu {
        fields.put_bits(sdu);
    }
    fields.bytes
}

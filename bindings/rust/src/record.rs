//! Records: what a call hands down to be sent, and what goes up.
use crate::{Bits, SsiType, TetraAddress};

/// What a record is.
#[derive(Clone, Copy, Debug, PartialEq, Eq)]
#[repr(u8)]
pub enum Kind {
    /// An acknowledged message, to be sent.
    Acknowledged = 1,
    /// A reply that acknowledges a frame, to be sent.
    Reply = 2,
    /// An unacknowledged message, to be sent.
    Unacknowledged = 3,
    /// An SDU of the acknowledged service, for the upper layer.
    DataUp = 4,
    /// An SDU of the unacknowledged service, for the upper layer.
    UnitdataUp = 5,
}

/// A record. Its bytes stay in the link, until the next call.
#[derive(Clone, Copy, Debug, PartialEq, Eq)]
pub struct Record<'a> {
    /// What it is.
    pub kind: Kind,
    /// Whom it goes to, or came from.
    pub main_address: TetraAddress,
    /// The carrier to send it on; of what is to be sent.
    pub carrier_num: Option<u16>,
    /// Link id.
    pub link_id: u32,
    /// Endpoint id.
    pub endpoint_id: u32,
    /// The request's handle, 0 in a reply; of what is to be sent.
    pub req_handle: Option<u32>,
    /// May it steal? Of what is to be sent.
    pub stealing_permission: Option<bool>,
    /// Timeslot mask, if there is one; bit 0 is timeslot 1.
    pub mask: Option<u8>,
    /// The receipt to report on; of messages.
    pub receipt: Option<u8>,
    /// What was passed on with the request or the frame; not of replies.
    pub block: Option<&'a [u8]>,
    /// FCS flag, of what goes up: if it is set, it came with check bits, and they were right.
    pub fcs_flag: Option<bool>,
    /// The PDU to be sent, up to 2,633 bits: with the FCS flag, its check bits are the last 32. Or the SDU that goes up, if one is
    /// left: without its check bits.
    pub bits: Option<Bits<'a>>,
}

impl<'a> Record<'a> {
    /// Takes a record off the front.
    fn take(bytes: &mut &'a [u8]) -> Option<Record<'a>> {
        let kind = match take(bytes, 0x01)? {
            [1] => Kind::Acknowledged,
            [2] => Kind::Reply,
            [3] => Kind::Unacknowledged,
            [4] => Kind::DataUp,
            [5] => Kind::UnitdataUp,
            _ => return None,
        };
        let [high, middle, low] = take(bytes, 0x02)?;
        let ssi_type = match take(bytes, 0x03)? {
            [1] => SsiType::Issi,
            [2] => SsiType::Gssi,
            _ => return None,
        };
        Some(Record {
            kind,
            main_address: TetraAddress::new(u32::from_be_bytes([0, high, middle, low]), ssi_type).ok()?,
            carrier_num: take(bytes, 0x04).map(u16::from_be_bytes),
            link_id: take(bytes, 0x05).map(u32::from_be_bytes)?,
            endpoint_id: take(bytes, 0x06).map(u32::from_be_bytes)?,
            req_handle: take(bytes, 0x07).map(u32::from_be_bytes),
            stealing_permission: take(bytes, 0x08).map(|[flag]| flag != 0),
            mask: take(bytes, 0x09).map(|[mask]| mask),
            receipt: take(bytes, 0x0a).map(|[receipt]| receipt),
            block: take_any(bytes, 0x0b),
            fcs_flag: take(bytes, 0x0d).map(|[flag]| flag != 0),
            bits: match take_any(bytes, 0x0c) {
                None => None,
                Some(value) => {
                    let (&count, packed) = value.split_first_chunk()?;
                    Some(Bits::new(packed, u16::from_be_bytes(count).into()).ok()?)
                }
            },
        })
    }
}

/// Takes a field with this tag off the front: its value.
fn take_any<'a>(bytes: &mut &'a [u8], tag: u8) -> Option<&'a [u8]> {
    let (&[first, high, low], rest) = bytes.split_first_chunk()?;
    if first != tag {
        return None;
    }
    let (value, rest) = rest.split_at_checked(u16::from_be_bytes([high, low]).into())?;
    *bytes = rest;
    Some(value)
}

/// Takes a field with this tag and a value of N bytes off the front.
fn take<const N: usize>(bytes: &mut &[u8], tag: u8) -> Option<[u8; N]> {
    let mut rest = *bytes;
    let value = take_any(&mut rest, tag)?.try_into().ok()?;
    *bytes = rest;
    Some(value)
}

/// The records of a call, in order.
#[derive(Clone, Debug)]
pub struct Records<'a> {
    bytes: &'a [u8],
}

impl<'a> Records<'a> {
    /// The records that these bytes are. The engine's bytes are records to the end; other bytes give those that stand in
    /// front of the first byte that belongs to none.
    pub fn new(bytes: &'a [u8]) -> Records<'a> {
        Records { bytes }
    }

    /// The bytes of the records that are still to come.
    pub fn as_bytes(&self) -> &'a [u8] {
        self.bytes
    }
}

impl<'a> Iterator for Records<'a> {
    type Item = Record<'a>;

    fn next(&mut self) -> Option<Record<'a>> {
        let mut rest = self.bytes;
        let record = Record::take(&mut rest)?;
        self.bytes = rest;
        Some(record)
    }
}

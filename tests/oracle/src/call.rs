//! Calls: what document 01's bytes say, and the bytes of a call.
use crate::faults;

/// A data request or a unitdata request.
#[derive(Clone)]
pub struct Request {
    pub ssi: u32,
    /// 1 individual, 2 group.
    pub kind: u8,
    pub carrier_given: u8,
    pub carrier: u16,
    pub link: u32,
    pub endpoint: u32,
    pub handle: u32,
    /// 1 steal, 2 FCS, 4 mask present.
    pub flags: u8,
    pub mask: u8,
    pub receipt: u8,
    pub block: Vec<u8>,
    pub bit_count: u16,
    pub bits: Vec<u8>,
}

impl Request {
    /// Is a data request like this on the acknowledged path?
    pub fn is_acknowledged(&self) -> bool {
        self.kind == 1 && self.flags & 1 == 0
    }
}

/// A frame that came in.
#[derive(Clone)]
pub struct Frame {
    pub ssi: u32,
    /// 1 individual, 2 group.
    pub kind: u8,
    pub carrier: u16,
    pub link: u32,
    pub endpoint: u32,
    pub block: Vec<u8>,
    pub bit_count: u16,
    pub bits: Vec<u8>,
}

/// A call whose lengths fill it.
#[derive(Clone)]
pub enum Call {
    Start { carrier: u16, t251: u16 },
    TickStart { h: u16, m: u8, f: u8, t: u8 },
    TickEnd,
    Data(Request),
    Unitdata(Request),
    Frame(Frame),
    Report { receipt: u8, value: u8 },
    Release { receipt: u8 },
}

/// Takes numbers from the front of bytes.
struct Taker<'a> {
    rest: &'a [u8],
}

impl<'a> Taker<'a> {
    /// The next `count` bytes, if there are as many.
    fn bytes(&mut self, count: usize) -> Option<&'a [u8]> {
        let (front, rest) = self.rest.split_at_checked(count)?;
        self.rest = rest;
        Some(front)
    }

    /// The next `count` bytes as a number.
    fn number(&mut self, count: usize) -> Option<u32> {
        Some(self.bytes(count)?.iter().fold(0, |sum, &byte| sum << 8 | byte as u32))
    }

    /// The next byte.
    fn byte(&mut self) -> Option<u8> {
        Some(self.number(1)? as u8)
    }

    /// The next two bytes as a number.
    fn short(&mut self) -> Option<u16> {
        Some(self.number(2)? as u16)
    }

    /// A block: its length, then its bytes.
    fn block(&mut self) -> Option<Vec<u8>> {
        let count = self.byte()?;
        Some(self.bytes(count as usize)?.to_vec())
    }

    /// Bits: their count, then bytes whose spare bits are zero.
    fn bits(&mut self) -> Option<(u16, Vec<u8>)> {
        let count = self.short()?;
        let bytes = self.bytes((count as usize).div_ceil(8))?.to_vec();
        let spare = bytes.len() * 8 - count as usize;
        let is_clean = spare == 0 || bytes[bytes.len() - 1] & ((1 << spare) - 1) == 0;
        is_clean.then_some((count, bytes))
    }
}

impl Call {
    /// Questions 2 and 3: the call that bytes spell, or the number.
    pub fn parse(bytes: &[u8]) -> Result<Call, u8> {
        let mut outer = Taker { rest: bytes };
        let (Some(tag), Some(len)) = (outer.byte(), outer.short()) else {
            return Err(2);
        };
        if outer.rest.len() != len as usize {
            return Err(2);
        }
        let tag = faults::tag(tag);
        if !(0x21..=0x28).contains(&tag) {
            return Err(3);
        }
        let value = faults::value(tag, outer.rest);
        let mut inner = Taker { rest: &value };
        match Call::value(tag, &mut inner) {
            Some(call) if inner.rest.is_empty() => Ok(call),
            _ => Err(2),
        }
    }

    /// What the value of a call with a known tag says, if it is long enough.
    fn value(tag: u8, v: &mut Taker) -> Option<Call> {
        Some(match tag {
            0x21 => Call::Start { carrier: v.short()?, t251: v.short()? },
            0x22 => Call::TickStart { h: v.short()?, m: v.byte()?, f: v.byte()?, t: v.byte()? },
            0x23 => Call::TickEnd,
            0x24 => Call::Data(Call::request(v)?),
            0x25 => Call::Unitdata(Call::request(v)?),
            0x26 => {
                let (ssi, kind, carrier) = (v.number(3)?, v.byte()?, v.short()?);
                let (link, endpoint, block) = (v.number(4)?, v.number(4)?, v.block()?);
                let (bit_count, bits) = v.bits()?;
                Call::Frame(Frame { ssi, kind, carrier, link, endpoint, block, bit_count, bits })
            }
            0x27 => Call::Report { receipt: v.byte()?, value: v.byte()? },
            _ => Call::Release { receipt: v.byte()? },
        })
    }

    /// What the value of a request says.
    fn request(v: &mut Taker) -> Option<Request> {
        let (ssi, kind, carrier_given, carrier) = (v.number(3)?, v.byte()?, v.byte()?, v.short()?);
        let (link, endpoint, handle) = (v.number(4)?, v.number(4)?, v.number(4)?);
        let (flags, mask, receipt, block) = (v.byte()?, v.byte()?, v.byte()?, v.block()?);
        let (bit_count, bits) = v.bits()?;
        Some(Request { ssi, kind, carrier_given, carrier, link, endpoint, handle, flags, mask, receipt, block, bit_count, bits })
    }

    /// The bytes of a call.
    pub fn bytes(&self) -> Vec<u8> {
        let mut value = Vec::new();
        let tag = match self {
            Call::Start { carrier, t251 } => {
                value.extend(carrier.to_be_bytes());
                value.extend(t251.to_be_bytes());
                0x21
            }
            Call::TickStart { h, m, f, t } => {
                value.extend(h.to_be_bytes());
                value.extend([*m, *f, *t]);
                0x22
            }
            Call::TickEnd => 0x23,
            Call::Data(request) => {
                put_request(&mut value, request);
                0x24
            }
            Call::Unitdata(request) => {
                put_request(&mut value, request);
                0x25
            }
            Call::Frame(frame) => {
                value.extend(&frame.ssi.to_be_bytes()[1..]);
                value.push(frame.kind);
                value.extend(frame.carrier.to_be_bytes());
                value.extend(frame.link.to_be_bytes());
                value.extend(frame.endpoint.to_be_bytes());
                put_tail(&mut value, &frame.block, frame.bit_count, &frame.bits);
                0x26
            }
            Call::Report { receipt, value: mark } => {
                value.extend([*receipt, *mark]);
                0x27
            }
            Call::Release { receipt } => {
                value.push(*receipt);
                0x28
            }
        };
        let mut bytes = vec![tag];
        bytes.extend((value.len() as u16).to_be_bytes());
        bytes.extend(value);
        bytes
    }
}

/// Writes the value of a request.
fn put_request(value: &mut Vec<u8>, request: &Request) {
    value.extend(&request.ssi.to_be_bytes()[1..]);
    value.extend([request.kind, request.carrier_given]);
    value.extend(request.carrier.to_be_bytes());
    value.extend(request.link.to_be_bytes());
    value.extend(request.endpoint.to_be_bytes());
    value.extend(request.handle.to_be_bytes());
    value.extend([request.flags, request.mask, request.receipt]);
    put_tail(value, &request.block, request.bit_count, &request.bits);
}

/// Writes block and bits.
fn put_tail(value: &mut Vec<u8>, block: &[u8], bit_count: u16, bits: &[u8]) {
    value.push(block.len() as u8);
    value.extend(block);
    value.extend(bit_count.to_be_bytes());
    value.extend(bits);
}

//! Calls for the scenes.
use oracle::bits::Bits;
use oracle::call::{Call, Frame, Request};
use tetra_core::TdmaTime;

/// The carrier.
const CARRIER: u16 = 0x05fa;

/// A start.
pub fn start(t251: u16) -> Call {
    Call::Start { carrier: CARRIER, t251 }
}

/// The tick start of a slot.
pub fn time(slot: i32) -> Call {
    let TdmaTime { h, m, f, t } = TdmaTime::from_int(slot);
    Call::TickStart { h, m, f, t }
}

/// Some bits.
fn some_bits(count: usize) -> Bits {
    let mut bits = Bits::default();
    (0..count).for_each(|at| bits.push(at * at % 7 < 3));
    bits
}

/// A request to an address, of so many bits.
pub fn request(ssi: u32, receipt: u8, count: usize) -> Request {
    Request {
        ssi,
        kind: 1,
        carrier_given: 0,
        carrier: 0,
        link: 0,
        endpoint: 0,
        handle: 0,
        flags: 0,
        mask: 0,
        receipt,
        block: Vec::new(),
        bit_count: count as u16,
        bits: some_bits(count).bytes(),
    }
}

/// A frame with a header of so many bits, an SDU and, if it is asked for, a right FCS.
pub fn frame(ssi: u32, header: u32, width: usize, count: usize, has_fcs: bool) -> Call {
    let mut bits = Bits::default();
    bits.push_value(header, width);
    let sdu = some_bits(count);
    let bytes = sdu.bytes();
    (0..sdu.len()).for_each(|at| bits.push(bytes[at / 8] >> (7 - at % 8) & 1 == 1));
    if has_fcs {
        bits.push_fcs(width);
    }
    Call::Frame(Frame {
        ssi,
        kind: 1,
        carrier: CARRIER,
        link: 0,
        endpoint: 0,
        block: Vec::new(),
        bit_count: bits.len() as u16,
        bits: bits.bytes(),
    })
}

/// BL-ACK.
pub fn ack(ssi: u32, nr: u8) -> Call {
    frame(ssi, 0b0011_0 | u32::from(nr), 5, 0, false)
}

/// A report: transmitted.
pub fn report(receipt: u8) -> Call {
    Call::Report { receipt, value: 1 }
}

/// A release.
pub fn release(receipt: u8) -> Call {
    Call::Release { receipt }
}

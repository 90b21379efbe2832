//! A run whose tick ends give as many and as long records as there can be: every place of every queue is in use. Behind it the
//! longest frames, and runs in which every row is taken.
use crate::bits::Bits;
use crate::call::{Call, Frame, Request};
use crate::oracle::{DUE, MESSAGES, ROWS, UNACKNOWLEDGED};
use tetra_core::TdmaTime;

/// The carrier.
const CARRIER: u16 = 0x05fa;
/// The bytes of the largest tick end: BL-ADATA and BL-ACK with FCS, and replies that steal.
pub const MOST: usize = MESSAGES * 454 + UNACKNOWLEDGED * 453 + DUE * 54;

/// A request with everything that makes its record long: mask, block, the longest SDU and the FCS flag.
fn request(ssi: u32, flags: u8, receipt: u8) -> Call {
    let mut bits = vec![receipt ^ 0xa5; 325];
    bits[324] &= 0xe0;
    Call::Data(Request {
        ssi,
        kind: 1,
        carrier_given: 1,
        carrier: CARRIER,
        link: ssi,
        endpoint: !ssi,
        handle: ssi << 8,
        flags: flags | 6,
        mask: receipt & 15,
        receipt,
        block: vec![receipt; 64],
        bit_count: 2595,
        bits,
    })
}

/// A frame with five bits.
fn frame_of(ssi: u32, bits: u8) -> Call {
    Call::Frame(Frame {
        ssi,
        kind: 1,
        carrier: CARRIER,
        link: 1,
        endpoint: 2,
        block: vec![9; 64],
        bit_count: 5,
        bits: vec![bits << 3],
    })
}

/// BL-DATA with N(S) 1 and nothing behind it.
fn frame(ssi: u32) -> Call {
    frame_of(ssi, 0b00011)
}

/// The longest frame of a type, with a right FCS or without one.
fn longest(pdu: u32, has_fcs: bool) -> Call {
    let mut bits = Bits::default();
    bits.push_value((has_fcs as u32) << 2 | pdu, 4);
    let header = [6, 5, 4, 5][pdu as usize];
    (4..2633).for_each(|at| bits.push(at % 3 == 0));
    if has_fcs {
        bits.cut(2633 - 32);
        bits.push_fcs(header);
    }
    Call::Frame(Frame {
        ssi: pdu << 1 | has_fcs as u32,
        kind: 2,
        carrier: CARRIER,
        link: 1,
        endpoint: 2,
        block: vec![9; 64],
        bit_count: 2633,
        bits: bits.bytes(),
    })
}

/// The tick start of a slot.
fn time(slot: i32) -> Call {
    let TdmaTime { h, m, f, t } = TdmaTime::from_int(slot);
    Call::TickStart { h, m, f, t }
}

/// The unacknowledged messages, each with an acknowledgement to carry, and then as many due as there can be.
fn unacknowledged_and_due() -> Vec<Call> {
    let mut calls = Vec::new();
    for at in 0..UNACKNOWLEDGED {
        let ssi = 0x20_0000 + at as u32;
        calls.push(frame(ssi));
        calls.push(request(ssi, 1, (MESSAGES + at) as u8));
    }
    calls.extend((0..DUE).map(|at| frame(0x30_0000 + at as u32)));
    calls
}

/// Every row taken, so many of them by frames and the others by requests; then calls from and to an SSI that has one, and one
/// that has none, also with as many due as there can be.
fn rows(by_frames: u32) -> Vec<Call> {
    let mut calls = vec![Call::Start { carrier: 1, t251: 4 }];
    for ssi in 0..ROWS as u32 {
        if ssi < by_frames {
            calls.extend([frame(ssi), Call::TickEnd]);
        } else {
            calls.extend([request(ssi, 0, 0), Call::TickEnd, Call::Report { receipt: 0, value: 1 }, Call::TickEnd]);
            // BL-ACK with N(R) 0.
            calls.extend([frame_of(ssi, 0b00110), Call::Release { receipt: 0 }]);
        }
    }
    let new = ROWS as u32;
    for (ssi, receipt) in [0, new - 1, new].into_iter().zip(0..) {
        calls.extend([frame_of(ssi, 0b00010), frame(ssi), request(ssi, 0, receipt)]);
    }
    // With an FCS that is not there, BL-UDATA, BL-ACK.
    calls.extend([0b01010, 0b00101, 0b00110].map(|bits| frame_of(new, bits)));
    calls.extend([request(new, 1, 3), Call::TickEnd]);
    calls.extend((0..DUE).map(|_| frame(0)));
    calls.extend([frame(new), frame(0), frame_of(new, 0b00101), Call::TickEnd]);
    calls
}

/// The run: all are sent, and then all are sent three times again and are gone. Then the longest frames come in, and the rows are
/// taken by frames, by requests and by both.
pub fn run() -> Vec<Call> {
    let mut calls = vec![Call::Start { carrier: 1, t251: 4 }];
    for at in 0..MESSAGES {
        let ssi = 0x10_0000 + at as u32;
        calls.push(frame(ssi));
        calls.push(request(ssi, 0, at as u8));
    }
    for turn in 0..5 {
        calls.push(time(turn * 8));
        calls.extend(unacknowledged_and_due());
        // One more of each.
        calls.extend([frame(0), request(0x10_0000, 0, 127), request(0x10_0000, 1, 127)]);
        calls.push(Call::TickEnd);
        for receipt in 0..(MESSAGES + UNACKNOWLEDGED) as u8 {
            calls.push(Call::Report { receipt, value: 1 });
        }
        for receipt in 0..(MESSAGES + UNACKNOWLEDGED) as u8 {
            calls.push(Call::Release { receipt });
        }
        calls.push(Call::TickEnd);
    }
    calls.extend((0..4).flat_map(|pdu| [longest(pdu, false), longest(pdu, true)]));
    calls.extend([ROWS as u32, 0, ROWS as u32 / 2].into_iter().flat_map(rows));
    calls
}

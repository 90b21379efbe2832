//! Runs that tell faults apart: every field of every call and record with a value that differs in every byte, each tag and each
//! value next to the known ones, SDUs of each length at which trimming or an FCS that goes down changes something, repeats, calls
//! that fail two questions, every row taken, and orders that are sent four times.
use crate::bits::Bits;
use crate::call::{Call, Frame, Request};
use crate::four::WRAP;
use crate::hex_line::line_of;
use crate::oracle::{DUE, MESSAGES, ROWS, UNACKNOWLEDGED};

const CARRIER: u16 = 0x5678;
const MAIN_CARRIER: u16 = 0x1234;
/// Read short it is 1 or 512.
const T251: u16 = 0x0201;
/// Bits of an SDU; its count has two bytes that are not 0, also behind a header.
const SDU: usize = 0x0143;

/// An address.
fn ssi(number: u32) -> u32 {
    0xa1b2_c3 + 0x01_0101 * number
}

/// A block in which no two bytes are the same.
fn block() -> Vec<u8> {
    (0..64).map(|place| 0x81 + place).collect()
}

/// A list of bits of no meaning, the last of them 1.
fn put_bits(bits: &mut Bits, count: usize) {
    (0..count).for_each(|place| bits.push(place * place % 7 < 3 || place + 1 == count));
}

/// A request.
fn request(address: u32, kind: u8, flags: u8, receipt: u8) -> Request {
    let mut bits = Bits::default();
    put_bits(&mut bits, SDU);
    Request {
        ssi: ssi(address),
        kind,
        carrier_given: 1,
        carrier: CARRIER,
        link: 0x1122_3344,
        endpoint: 0x5566_7788,
        handle: 0x99aa_bbcc,
        flags,
        mask: if flags & 4 == 0 { 0 } else { 0x0b },
        receipt,
        block: block(),
        bit_count: SDU as u16,
        bits: bits.bytes(),
    }
}

/// A request with nothing in it that need not be.
fn short(address: u32, receipt: u8) -> Request {
    let (block, bits) = (Vec::new(), Vec::new());
    Request { ssi: address, kind: 1, block, bit_count: 0, bits, ..request(0, 1, 0, receipt) }
}

/// A frame of a type, with an SDU, without a check sequence (0), with one (1), or with one that is wrong (2).
fn frame(address: u32, kind: u8, pdu: u32, check: u8) -> Frame {
    frame_with(address, kind, pdu, check, SDU)
}

/// A frame with an SDU of so many bits.
fn frame_with(address: u32, kind: u8, pdu: u32, check: u8, sdu: usize) -> Frame {
    let mut bits = Bits::default();
    bits.push_value((if check > 0 { 4 } else { 0 }) | pdu, 4);
    bits.push_value(3, [2, 1, 0, 1][pdu as usize]);
    let header = bits.len();
    put_bits(&mut bits, sdu);
    if check > 0 {
        bits.push_fcs(header);
    }
    if check > 1 {
        bits.flip(header + 9);
    }
    let (bit_count, bits) = (bits.len() as u16, bits.bytes());
    let (link, endpoint) = (0xd1e2_f304, 0x1525_3545);
    Frame { ssi: ssi(address), kind, carrier: CARRIER, link, endpoint, block: block(), bit_count, bits }
}

/// A time.
fn time(h: u16, m: u8, f: u8, t: u8) -> Call {
    Call::TickStart { h, m, f, t }
}

/// Every field of every call and record. A message is done in the last slot of hyperframe 255, and its resend is due T251 later.
fn fields() -> Vec<Call> {
    let mut calls = vec![Call::Start { carrier: MAIN_CARRIER, t251: T251 }, time(0x01ff, 60, 18, 4)];
    for pdu in 0..4 {
        // Each from an address of its own, so that none is a repeat.
        for (at, (kind, check)) in [(1, 0), (1, 1), (1, 2), (2, 0), (2, 1), (2, 2)].into_iter().enumerate() {
            calls.push(Call::Frame(frame(pdu + 0x10 * at as u32, kind, pdu, check)));
        }
    }
    calls.extend([
        // A BL-ACK with the request's link id, BL-UDATA, BL-ADATA, BL-DATA, and BL-UDATA with the request's link id.
        Call::Data(request(1, 1, 5, 0x71)),
        Call::Data(request(4, 1, 5, 0x72)),
        Call::Data(request(5, 2, 6, 0x73)),
        Call::Data(request(0, 1, 4, 0x74)),
        Call::Data(request(6, 1, 6, 0x75)),
        Call::Unitdata(request(7, 1, 5, 0x76)),
        Call::Unitdata(request(7, 2, 6, 0x77)),
        // On the main carrier.
        Call::Data(Request { carrier_given: 0, carrier: 0, ..request(8, 1, 0, 0x78) }),
        Call::TickEnd,
    ]);
    calls.extend([0x71, 0x72, 0x76, 0x74, 0x75].map(|receipt| Call::Report { receipt, value: 1 }));
    calls.extend([0x73, 0x77, 0x78].map(|receipt| Call::Report { receipt, value: 2 }));
    calls.push(Call::TickEnd);
    calls.extend([0x71, 0x72, 0x73, 0x74, 0x76, 0x77].map(|receipt| Call::Release { receipt }));
    // 1, 2, 512, 513 and 514 slots later.
    for later in
        [time(0x0200, 1, 1, 1), time(0x0200, 1, 1, 2), time(0x0200, 8, 2, 4), time(0x0200, 8, 3, 1), time(0x0200, 8, 3, 2)]
    {
        calls.extend([later, Call::TickEnd]);
    }
    calls
}

/// What the check bits leave of each PDU: nothing, up to a byte and a bit, the longest SDU, that of the longest frame.
fn trimmed() -> Vec<Call> {
    let mut calls = vec![Call::Start { carrier: MAIN_CARRIER, t251: T251 }];
    for (pdu, header) in [(0, 6), (1, 5), (2, 4), (3, 5)] {
        let lengths = [0, 1, 7, 8, 9, 2595, 2633 - 32 - header];
        let addresses = (0..).map(|at| pdu + 0x08 * at);
        calls.extend(addresses.zip(lengths).map(|(address, length)| Call::Frame(frame_with(address, 1, pdu, 1, length))));
    }
    calls
}

/// What goes down with the FCS flag, in each PDU: nothing, up to a byte and a bit, around 32 bits, the longest SDU. What is
/// acknowledged came with FCS and without, and so did what gets a reply. The messages are sent again. Behind them what asks for an
/// FCS and goes out in a BL-UDATA, for a group or stealing.
fn announced() -> Vec<Call> {
    let mut calls = vec![Call::Start { carrier: MAIN_CARRIER, t251: 1 }, time(1, 1, 1, 1)];
    let with_fcs = |address, kind, flags, receipt, length| {
        let mut bits = Bits::default();
        put_bits(&mut bits, length);
        let (bit_count, bits) = (length as u16, bits.bytes());
        Request { kind, bit_count, bits, block: Vec::new(), ..request(address, kind, flags | 2, receipt) }
    };
    let lengths = [0, 1, 7, 8, 9, 31, 32, 33, 2595];
    let all = || (0..).zip([0, 1, 3].into_iter().flat_map(|pdu| lengths.map(|length| (pdu, length))));
    for (at, (pdu, length)) in all() {
        if pdu != 1 {
            let came = Frame { block: Vec::new(), ..frame_with(at.into(), 1, 1, at % 2, 3) };
            calls.push(Call::Frame(came));
        }
        calls.push(Call::Data(with_fcs(at.into(), 1, (pdu == 3) as u8, at, length)));
    }
    calls.extend((0..4).map(|at| Call::Frame(Frame { block: Vec::new(), ..frame_with(at, 1, 1, at as u8 % 2, 3) })));
    calls.push(Call::TickEnd);
    calls.extend(all().map(|(receipt, _)| Call::Report { receipt, value: 1 }));
    calls.extend([Call::TickEnd, time(1, 1, 1, 2), Call::TickEnd]);
    for (receipt, (kind, steals)) in (0x60..).zip([(1, 1), (2, 0), (2, 1)]) {
        calls.push(Call::Data(with_fcs(0x20, kind, steals, receipt, 9)));
    }
    for (receipt, (kind, steals)) in (0x64..).zip([(1, 0), (1, 1), (2, 0), (2, 1)]) {
        calls.push(Call::Unitdata(with_fcs(0x20, kind, steals, receipt, 9)));
    }
    calls.push(Call::TickEnd);
    calls
}

/// A frame of a type with these numbers, with nothing in it that need not be.
fn numbered(address: u32, pdu: u32, nr: u32, ns: u32) -> Frame {
    let mut bits = Bits::default();
    bits.push_value(pdu, 4);
    let (numbers, width) = [(nr << 1 | ns, 2), (ns, 1), (0, 0), (nr, 1)][pdu as usize];
    bits.push_value(numbers, width);
    Frame { block: Vec::new(), bit_count: bits.len() as u16, bits: bits.bytes(), ..frame(address, 1, pdu, 0) }
}

/// Repeats that differ from the frame before in one part alone, and behind calls that leave the last N(S) as it was.
fn repeats() -> Vec<Call> {
    let data = |address, ns| Call::Frame(numbered(address, 1, 0, ns));
    let mut calls = vec![Call::Start { carrier: MAIN_CARRIER, t251: T251 }, data(0, 0), data(1, 1)];
    // The first frames in rows that requests made.
    calls.extend([Call::Data(short(ssi(2), 2)), data(2, 0), Call::Data(short(ssi(3), 3)), data(3, 1)]);
    // PDU type, N(R), SDU, FCS flag; carrier, type, link, endpoint, block.
    let fcs = Frame { block: Vec::new(), ..frame_with(1, 1, 0, 1, 3) };
    let sdu = Frame { block: Vec::new(), ..frame_with(1, 1, 0, 0, 3) };
    calls.extend([numbered(1, 0, 0, 1), numbered(1, 0, 1, 1), sdu, fcs].map(Call::Frame));
    let mut same = numbered(0, 1, 0, 0);
    let mut other = |change: fn(&mut Frame)| {
        change(&mut same);
        Call::Frame(same.clone())
    };
    calls.extend([other(|frame| frame.carrier ^= 1), other(|frame| frame.kind = 2), other(|frame| frame.link ^= 1)]);
    calls.extend([other(|frame| frame.endpoint ^= 1), other(|frame| frame.block.push(1))]);
    // Other numbers in turn, and another address between.
    calls.extend([data(0, 1), data(0, 1), data(1, 0), data(0, 1), data(0, 0), data(0, 0)]);
    // What leaves the last N(S) as it was; the requests are sent, reported and released.
    let between = [
        time(1, 1, 1, 1),
        Call::Data(short(ssi(0), 0)),
        Call::Unitdata(short(ssi(0), 1)),
        Call::TickEnd,
        Call::Report { receipt: 1, value: 1 },
        Call::Release { receipt: 1 },
        Call::Frame(numbered(0, 2, 0, 0)),
        Call::Frame(numbered(0, 3, 1, 0)),
        data(1, 0),
    ];
    calls.extend(between.into_iter().flat_map(|call| [call, data(0, 0)]));
    // Frames refused with 12 and 14, whose N(S) goes up behind it.
    calls.extend([Call::Report { receipt: 0, value: 2 }, Call::TickEnd]);
    calls.push(Call::Frame(frame(0, 1, 1, 2)));
    calls.extend([data(0, 1), Call::Frame(numbered(0, 0, 0, 0)), data(0, 0)]);
    // A repeat whose N(R) finishes a message: its receipt can be released.
    calls.extend([
        Call::Report { receipt: 2, value: 1 },
        Call::TickEnd,
        Call::Frame(numbered(2, 0, 0, 0)),
        Call::Release { receipt: 2 },
    ]);
    // With 64 due, a repeat refused with 13, and N(S) 1, which then goes up, and after a start again.
    calls.extend((0..DUE as u32 - 1).map(|_| data(4, 0)));
    calls.extend([data(0, 0), data(0, 1), Call::TickEnd, data(0, 1), Call::TickEnd]);
    calls.extend([Call::Start { carrier: MAIN_CARRIER, t251: T251 }, data(0, 1)]);
    // A frame's row has the send bit 0.
    calls.extend([Call::Data(short(ssi(0), 0)), Call::TickEnd]);
    calls
}

/// Every row taken by frames: the last one behind frames that make none, without N(S) or refused with 12 or 13. Then frames of an
/// address without a row, with FCS and without, and with 64 due.
fn rows() -> Vec<Call> {
    let of = |ssi, pdu| Call::Frame(Frame { ssi, ..numbered(0, pdu, 0, 0) });
    let mut calls = vec![Call::Start { carrier: MAIN_CARRIER, t251: T251 }];
    for ssi in 0..ROWS as u32 - 1 {
        calls.push(of(ssi, 1));
        if ssi as usize % DUE == DUE - 1 {
            calls.push(Call::TickEnd);
        }
    }
    let last = ROWS as u32 - 1;
    let unchecked = |ssi| Call::Frame(Frame { ssi, ..frame(0, 1, 1, 2) });
    calls.extend([of(0x1000, 2), of(0x1001, 3), of(0, 1), of(0x1002, 1), Call::TickEnd, unchecked(0x1003), of(last, 0)]);
    calls.extend([of(0x1000, 2), of(0x1001, 3), of(0x1002, 1), unchecked(0x1003)]);
    calls.extend([Call::Data(short(last, 1)), Call::Data(short(0x1004, 2)), Call::TickEnd]);
    calls.extend((0..DUE as u32).map(|ssi| of(ssi, 1)));
    calls.extend([of(0x1005, 1), of(0, 1)]);
    calls
}

/// Each value next to those in range, each in a call in which all else is.
fn ranges() -> Vec<Call> {
    let mut calls = vec![Call::Start { carrier: MAIN_CARRIER, t251: T251 }, Call::Start { carrier: MAIN_CARRIER, t251: 0 }];
    calls.extend([time(1, 0, 1, 1), time(1, 61, 1, 1), time(1, 1, 0, 1), time(1, 1, 19, 1), time(1, 1, 1, 0), time(1, 1, 1, 5)]);
    let ok = short(0xa1b2c3, 0x71);
    let mut requests: Vec<Request> = [0, 3].map(|kind| Request { kind, ..ok.clone() }).to_vec();
    requests.push(Request { carrier_given: 2, carrier: 0, ..ok.clone() });
    requests.extend([8, 16, 32, 64, 128].map(|flags| Request { flags, ..ok.clone() }));
    requests.push(Request { receipt: 128, ..ok.clone() });
    requests.push(Request { flags: 4, mask: 16, ..ok.clone() });
    requests.push(Request { flags: 3, mask: 8, ..ok.clone() });
    requests.extend([0x0100, 0x0001].map(|carrier| Request { carrier_given: 0, carrier, ..ok.clone() }));
    requests.push(Request { block: vec![7; 65], ..ok.clone() });
    requests.push(Request { bit_count: 2596, bits: vec![0; 325], ..ok });
    calls.extend(requests.iter().cloned().map(Call::Data));
    calls.extend(requests.into_iter().map(Call::Unitdata));
    let ok = Frame { block: Vec::new(), bit_count: 4, bits: vec![0x20], ..frame(0, 1, 2, 0) };
    calls.extend([0, 3].map(|kind| Call::Frame(Frame { kind, ..ok.clone() })));
    calls.push(Call::Frame(Frame { block: vec![7; 65], ..ok.clone() }));
    calls.push(Call::Frame(Frame { bit_count: 2634, bits: [vec![0x20], vec![0; 329]].concat(), ..ok }));
    calls.extend([(128, 1), (0x71, 0), (0x71, 3)].map(|(receipt, value)| Call::Report { receipt, value }));
    calls.push(Call::Release { receipt: 128 });
    calls
}

/// Requests that fail two of the questions 6 to 8: with 32 messages held, then with every row taken and 64 messages held.
fn orders() -> Vec<Call> {
    let mut calls = vec![Call::Start { carrier: MAIN_CARRIER, t251: u16::MAX }];
    calls.extend((0..UNACKNOWLEDGED as u8).map(|receipt| Call::Unitdata(short(9, receipt))));
    calls.extend([Call::Unitdata(short(9, 5)), Call::Data(Request { kind: 2, ..short(9, 5) })]);
    calls.push(Call::Start { carrier: MAIN_CARRIER, t251: u16::MAX });
    let receipts = || 0..MESSAGES as u8;
    for group in 0..(ROWS / MESSAGES) as u32 {
        let address = |receipt: u8| 0x10_0000 * group + receipt as u32;
        calls.extend(receipts().map(|receipt| Call::Data(short(address(receipt), receipt))));
        if (group as usize + 1) * MESSAGES < ROWS {
            calls.push(Call::TickEnd);
            calls.extend(receipts().map(|receipt| Call::Report { receipt, value: 1 }));
            calls.push(Call::TickEnd);
            // A BL-ACK with N(R) 0 to each.
            let ack = Frame { block: Vec::new(), bit_count: 5, bits: vec![0x30], ..frame(0, 1, 3, 0) };
            calls.extend(receipts().map(|receipt| Call::Frame(Frame { ssi: address(receipt), ..ack.clone() })));
            calls.extend(receipts().map(|receipt| Call::Release { receipt }));
        }
    }
    // 6 and 7 and 8; 6 and 8; 7 and 8; 8. Of frames: 7; none.
    let (new, old) = (0x00ff_ffff, 0x10_0000);
    calls.extend([(new, 5), (old, 5), (new, 0x71), (old, 0x71)].map(|(address, receipt)| Call::Data(short(address, receipt))));
    calls.extend([new, old].map(|ssi| Call::Frame(Frame { ssi, ..numbered(0, 1, 0, 0) })));
    calls
}

/// The tick start of a slot, counted around the wrap.
fn slot(at: i64) -> Call {
    let at = at.rem_euclid(WRAP);
    time((at / 4320) as u16, (at / 72 % 60 + 1) as u8, (at / 4 % 18 + 1) as u8, (at % 4 + 1) as u8)
}

/// Orders that are handed down four times, and end Lost, Discarded or Acknowledged. Behind each report comes a tick end in which
/// the sending is done, one in which it is one slot short of T251, and one in which it is due: T251 slots old or more, or ahead.
fn sendings() -> Vec<Call> {
    let t251 = 3;
    let mut calls = vec![Call::Start { carrier: MAIN_CARRIER, t251 }];
    // A first slot, the reports, and how many slots after each done time the message is due; without the last it is acknowledged.
    let ways: [(i64, [u8; 4], &[i64]); 5] = [
        (10, [1, 1, 1, 1], &[3, 3, 3, 3]),
        (20, [2, 2, 2, 2], &[-1, -2, -WRAP / 2, -1]),
        (WRAP - 5, [1, 2, 1, 2], &[4, 3, -2, 3]),
        (1, [2, 1, 2, 1], &[-2, 3, WRAP / 2 - 1, -WRAP / 2]),
        (30, [1, 2, 2, 1], &[3, -1, 3]),
    ];
    for (address, (mut now, reports, later)) in (0..).zip(ways) {
        let receipt = address as u8;
        calls.extend([slot(now), Call::Data(short(ssi(address), receipt)), Call::TickEnd]);
        for (place, value) in reports.into_iter().enumerate() {
            calls.extend([Call::Report { receipt, value }, Call::TickEnd, slot(now + i64::from(t251) - 1), Call::TickEnd]);
            match later.get(place) {
                Some(later) => now += later,
                None => calls.push(Call::Frame(numbered(address, 3, 0, 0))),
            }
            calls.extend([slot(now), Call::TickEnd]);
        }
        calls.push(Call::Release { receipt });
    }
    calls
}

/// The lines: behind the fields each tag next to the known ones, its lengths as a known one has them.
pub fn lines() -> Vec<Vec<u8>> {
    let mut lines: Vec<Vec<u8>> = fields().iter().map(|call| line_of(&call.bytes())).collect();
    let tagged = |tag: u8, call: Call| {
        let mut bytes = call.bytes();
        bytes[0] = tag;
        line_of(&bytes)
    };
    lines.extend((0x00..=0x20).map(|tag| tagged(tag, Call::Start { carrier: MAIN_CARRIER, t251: T251 })));
    lines.extend((0x29..=0x2f).map(|tag| tagged(tag, Call::Release { receipt: 0x78 })));
    let known = [
        Call::Start { carrier: MAIN_CARRIER, t251: T251 },
        time(1, 1, 1, 1),
        Call::TickEnd,
        Call::Data(short(9, 1)),
        Call::Unitdata(short(9, 1)),
        Call::Frame(frame(0, 1, 2, 0)),
        Call::Report { receipt: 1, value: 1 },
        Call::Release { receipt: 1 },
    ];
    lines.extend(known.into_iter().map(|call| tagged(call.bytes()[0] | 0x80, call)));
    let runs = [trimmed(), announced(), repeats(), ranges(), orders(), rows(), sendings()];
    lines.extend(runs.iter().flatten().map(|call| line_of(&call.bytes())));
    lines
}

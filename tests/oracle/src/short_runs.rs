//! Every short run: all lists of calls out of an alphabet, after several beginnings.
use crate::bits::Bits;
use crate::call::{Call, Frame, Request};
use tetra_core::TdmaTime;

/// The main carrier, and another one.
const MAIN: u16 = 0x05fa;
const OTHER: u16 = 0x05fb;
/// Three addresses.
const A: u32 = 0x0003e9;
const B: u32 = 0x0003ea;
const C: u32 = 0x0003eb;

/// What lists are made of.
pub struct Alphabet {
    pub name: &'static str,
    pub start: Call,
    pub beginnings: Vec<Vec<Call>>,
    pub letters: Vec<Call>,
    /// Calls behind each list, which show what it left.
    pub tail: Vec<Call>,
}

/// A request of four bits, with a carrier if it is not the main one.
fn request(ssi: u32, kind: u8, flags: u8, carrier: u16, receipt: u8) -> Request {
    let given = carrier != MAIN;
    Request {
        ssi,
        kind,
        carrier_given: given as u8,
        carrier: if given { carrier } else { 0 },
        link: 7,
        endpoint: 8,
        handle: 9,
        flags,
        mask: 0,
        receipt,
        block: Vec::new(),
        bit_count: 4,
        bits: vec![0xa0],
    }
}

/// A data request on the acknowledged path.
fn data(ssi: u32, receipt: u8) -> Call {
    Call::Data(request(ssi, 1, 0, MAIN, receipt))
}

/// A data request that steals.
fn steal(ssi: u32, carrier: u16, receipt: u8) -> Call {
    Call::Data(request(ssi, 1, 1, carrier, receipt))
}

/// A frame of up to eight bits, given as characters.
fn frame(ssi: u32, kind: u8, carrier: u16, bits: &str) -> Call {
    let byte = bits.bytes().enumerate().fold(0, |sum, (at, bit)| sum | (bit - b'0') << (7 - at));
    let bit_count = bits.len() as u16;
    Call::Frame(Frame { ssi, kind, carrier, link: 5, endpoint: 6, block: Vec::new(), bit_count, bits: vec![byte] })
}

/// A frame on the main carrier with a header and an SDU, given as characters, and a right FCS.
fn checked(ssi: u32, header: &str, sdu: &str) -> Call {
    let mut bits = Bits::default();
    header.bytes().chain(sdu.bytes()).for_each(|bit| bits.push(bit == b'1'));
    bits.push_fcs(header.len());
    let (bit_count, bits) = (bits.len() as u16, bits.bytes());
    Call::Frame(Frame { ssi, kind: 1, carrier: MAIN, link: 5, endpoint: 6, block: Vec::new(), bit_count, bits })
}

/// BL-ACK with an N(R), on the main carrier.
fn ack(ssi: u32, nr: u8) -> Call {
    frame(ssi, 1, MAIN, if nr == 0 { "00110" } else { "00111" })
}

/// The tick start of a slot.
fn time(slot: i32) -> Call {
    let TdmaTime { h, m, f, t } = TdmaTime::from_int(slot);
    Call::TickStart { h, m, f, t }
}

/// A report: transmitted.
fn sent(receipt: u8) -> Call {
    Call::Report { receipt, value: 1 }
}

/// A report: discarded.
fn discarded(receipt: u8) -> Call {
    Call::Report { receipt, value: 2 }
}

/// A release.
fn release(receipt: u8) -> Call {
    Call::Release { receipt }
}

/// One after the other.
fn all(parts: &[&[Call]]) -> Vec<Call> {
    parts.concat()
}

/// One address: what falls first of report, tick and acknowledgement.
fn one_address() -> Alphabet {
    let tick = Call::TickEnd;
    let first = vec![data(A, 1), tick.clone()];
    // Three resends, the last done time at slot 0.
    let again = |at| vec![sent(1), tick.clone(), time(at), tick.clone()];
    let last_try = all(&[&first, &again(5), &again(0), &again(5), &[time(0)]]);
    Alphabet {
        name: "one address",
        start: Call::Start { carrier: MAIN, t251: 2 },
        beginnings: vec![
            vec![],
            first.clone(),
            all(&[&first, &[sent(1)]]),
            all(&[&first, &[sent(1), tick.clone()]]),
            all(&[&first, &[discarded(1), tick.clone()]]),
            all(&[&[data(A, 2)], &first, &[sent(2), tick.clone()]]),
            all(&[&last_try, &[sent(1), tick.clone()]]),
            all(&[&last_try, &[data(A, 2), discarded(1), tick.clone()]]),
            vec![frame(A, 1, MAIN, "00011"), frame(A, 2, OTHER, "00010")],
            vec![steal(A, MAIN, 1), tick.clone()],
        ],
        letters: vec![
            data(A, 1),
            data(A, 2),
            steal(A, MAIN, 3),
            frame(A, 1, MAIN, "00010"),
            ack(A, 0),
            frame(A, 1, MAIN, "0000111"),
            frame(A, 1, OTHER, "00110"),
            sent(1),
            discarded(1),
            time(1),
            time(2),
            tick.clone(),
            release(1),
        ],
        tail: all(&[
            &[tick.clone(), sent(1), sent(2), sent(3), time(9), tick.clone(), ack(A, 0), release(1), release(2), release(3)],
            &[time(12), tick.clone(), ack(A, 1), release(1), release(2), data(A, 1), tick.clone(), sent(1), release(3)],
        ]),
    }
}

/// Three addresses in one queue: its order.
fn three_addresses() -> Alphabet {
    let tick = Call::TickEnd;
    let three = vec![data(A, 1), data(B, 2), data(C, 3), tick.clone()];
    let reported = vec![sent(1), sent(2), sent(3), tick.clone()];
    Alphabet {
        name: "three addresses",
        start: Call::Start { carrier: MAIN, t251: 2 },
        beginnings: vec![
            vec![],
            three.clone(),
            all(&[&three, &reported]),
            all(&[&three, &[discarded(1), sent(2), discarded(3), data(B, 5), tick.clone()]]),
        ],
        letters: vec![
            data(A, 1),
            data(B, 2),
            data(C, 3),
            data(A, 4),
            ack(A, 1),
            ack(B, 0),
            ack(B, 1),
            frame(C, 2, MAIN, "000010"),
            sent(1),
            sent(2),
            time(2),
            tick.clone(),
        ],
        tail: all(&[
            &[time(6), tick.clone(), ack(B, 1), sent(1), sent(2), sent(3), sent(4), time(7), tick.clone(), ack(C, 1)],
            &[time(9), tick.clone(), ack(A, 0), release(1), release(2), release(3), release(4), time(12), tick.clone()],
        ]),
    }
}

/// Acknowledgements due: who takes them.
fn due() -> Alphabet {
    let tick = Call::TickEnd;
    let mut masked = request(A, 1, 6, OTHER, 2);
    masked.mask = 5;
    Alphabet {
        name: "acknowledgements due",
        start: Call::Start { carrier: MAIN, t251: 1 },
        beginnings: vec![
            vec![],
            vec![frame(A, 1, MAIN, "00011")],
            vec![frame(B, 1, MAIN, "00010"), time(2), frame(A, 1, OTHER, "00010"), frame(A, 1, MAIN, "00011")],
        ],
        letters: vec![
            frame(A, 1, MAIN, "000101"),
            frame(A, 1, OTHER, "00011"),
            frame(A, 2, MAIN, "00010"),
            data(A, 1),
            Call::Data(masked),
            steal(A, MAIN, 3),
            steal(A, OTHER, 4),
            Call::Data(request(A, 2, 0, MAIN, 5)),
            Call::Data(request(A, 2, 3, OTHER, 6)),
            Call::Unitdata(request(A, 1, 3, MAIN, 7)),
            time(3),
            tick.clone(),
        ],
        tail: vec![
            tick.clone(),
            sent(1),
            sent(2),
            sent(3),
            sent(4),
            sent(7),
            release(1),
            release(3),
            release(4),
            release(7),
            ack(A, 0),
            time(5),
            tick.clone(),
        ],
    }
}

/// Frames with FCS, some with nothing else: what goes up, what is acknowledged and what is due.
fn with_fcs() -> Alphabet {
    let tick = Call::TickEnd;
    let done = vec![data(A, 1), tick.clone(), sent(1), tick.clone()];
    Alphabet {
        name: "frames with FCS",
        start: Call::Start { carrier: MAIN, t251: 2 },
        beginnings: vec![vec![], done.clone(), all(&[&done, &[data(A, 2), frame(A, 1, MAIN, "00010")]])],
        letters: vec![
            checked(A, "010000", ""),
            checked(A, "010001", "1"),
            checked(A, "01010", ""),
            checked(A, "01011", "0110011"),
            checked(A, "0110", ""),
            checked(A, "0110", "10011001"),
            checked(A, "01110", ""),
            checked(A, "01110", "110011001"),
            checked(A, "01111", ""),
            data(A, 2),
            tick.clone(),
        ],
        tail: vec![tick.clone(), sent(1), sent(2), release(1), release(2), time(9), tick.clone(), ack(A, 1), release(2)],
    }
}

/// Requests that ask for an FCS: which frames go out with one, and with it again.
fn announced() -> Alphabet {
    let tick = Call::TickEnd;
    let asking = |kind, flags: u8, receipt, bits: &str| {
        let mut sdu = Bits::default();
        bits.bytes().for_each(|bit| sdu.push(bit == b'1'));
        Request { bit_count: sdu.len() as u16, bits: sdu.bytes(), ..request(A, kind, flags | 2, MAIN, receipt) }
    };
    let empty = Call::Data(asking(1, 0, 1, ""));
    let done = vec![empty.clone(), tick.clone(), sent(1), tick.clone()];
    Alphabet {
        name: "frames sent with FCS",
        start: Call::Start { carrier: MAIN, t251: 2 },
        beginnings: vec![vec![], vec![frame(A, 1, MAIN, "00011")], all(&[&done, &[checked(A, "01010", "1")]])],
        letters: vec![
            empty,
            Call::Data(asking(1, 0, 2, "1001101")),
            Call::Data(asking(1, 1, 3, "")),
            Call::Data(asking(1, 1, 4, "110100110")),
            Call::Data(asking(2, 0, 5, "01")),
            Call::Unitdata(asking(1, 0, 6, "0")),
            data(A, 7),
            frame(A, 1, MAIN, "00010"),
            checked(A, "010001", "11"),
            sent(1),
            time(2),
            tick.clone(),
        ],
        tail: all(&[
            &[tick.clone(), sent(1), sent(2), tick.clone(), time(9), tick.clone(), ack(A, 0), sent(1), sent(2)],
            &[time(12), tick.clone(), ack(A, 1), tick],
        ]),
    }
}

/// Repeats from an address, and another address beside it.
fn repeats() -> Alphabet {
    let tick = Call::TickEnd;
    let start = Call::Start { carrier: MAIN, t251: 2 };
    let done = vec![data(B, 2), data(A, 1), tick.clone(), sent(1), sent(2), tick.clone()];
    Alphabet {
        name: "repeats",
        start: start.clone(),
        beginnings: vec![
            vec![],
            vec![frame(A, 1, MAIN, "00010")],
            vec![frame(A, 1, MAIN, "000011"), frame(B, 1, MAIN, "00010")],
            all(&[&done, &[frame(A, 1, OTHER, "0001110")]]),
        ],
        letters: vec![
            frame(A, 1, MAIN, "00010"),
            frame(A, 1, OTHER, "000111"),
            frame(A, 2, MAIN, "00000001"),
            frame(A, 1, MAIN, "000011"),
            checked(A, "01010", "1"),
            checked(A, "01011", ""),
            frame(A, 1, MAIN, "00101"),
            ack(A, 0),
            frame(B, 1, MAIN, "00011"),
            data(A, 1),
            tick.clone(),
            start,
        ],
        tail: vec![
            frame(A, 1, MAIN, "00010"),
            frame(B, 1, MAIN, "00010"),
            data(A, 3),
            tick.clone(),
            sent(1),
            sent(3),
            release(1),
            frame(A, 1, MAIN, "000001"),
            time(9),
            tick,
        ],
    }
}

/// All alphabets.
pub fn alphabets() -> Vec<Alphabet> {
    vec![one_address(), three_addresses(), due(), with_fcs(), announced(), repeats()]
}

impl Alphabet {
    /// The list of `length` letters that a number spells; shorter lists are the beginnings of these.
    pub fn list(&self, mut number: usize, length: usize) -> Vec<Call> {
        let mut list = Vec::new();
        for _ in 0..length {
            list.push(self.letters[number % self.letters.len()].clone());
            number /= self.letters.len();
        }
        list
    }

    /// The number of lists of a length.
    pub fn count(&self, length: usize) -> usize {
        self.letters.len().pow(length as u32)
    }
}

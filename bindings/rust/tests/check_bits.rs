//! A frame that is sent with the FCS flag ends with the check sequence of its SDU, and a handset gets that SDU out of it.
use wipturay::{Bits, Frame, Kind, Link, Report, Request, SsiType, TdmaTime, TetraAddress};

const CARRIER: u16 = 0x05fa;

/// Lengths of SDUs: none, about the width of a check sequence, and the most.
const LENGTHS: [usize; 6] = [0, 1, 31, 32, 33, 2_595];

/// The check sequence of bits, in document 01's words: "Divisor 04C11DB7 hexadecimal, highest bit first, start all ones, result
/// inverted. For 1 to 31 bits the start is shifted left by 32 less the length."
fn check_sequence(bits: &[bool]) -> u32 {
    let start = match bits.len() {
        len @ 1..=31 => u32::MAX << (32 - len),
        _ => u32::MAX,
    };
    let rest = bits.iter().fold(start, |rest, &bit| {
        let divisor = if (rest >> 31 == 1) != bit { 0x04c1_1db7 } else { 0 };
        rest << 1 ^ divisor
    });
    !rest
}

/// The bits that a text of zeros and ones spells.
fn spelled(text: &str) -> Vec<bool> {
    text.chars().map(|c| c == '1').collect()
}

/// The bits of a number, the highest first.
fn bits_of(number: u32) -> impl Iterator<Item = bool> {
    (0..32).map(move |i| number << i >> 31 == 1)
}

/// Bytes that hold bits, from the highest bit of the first byte on.
fn pack(bits: &[bool]) -> Vec<u8> {
    let byte = |bits: &[bool]| (0..8).fold(0, |byte, i| byte << 1 | u8::from(bits.get(i) == Some(&true)));
    bits.chunks(8).map(byte).collect()
}

/// So many bits that look random (xorshift).
fn sdu(len: usize) -> Vec<bool> {
    let mut state = 0x2545_f491 + len as u32;
    let next = || {
        state ^= state << 13;
        state ^= state >> 17;
        state ^= state << 5;
        state >> 31 == 1
    };
    std::iter::repeat_with(next).take(len).collect()
}

/// A header, an SDU and its check sequence.
fn checked(header: &str, sdu: &[bool]) -> Vec<bool> {
    let check = bits_of(check_sequence(sdu));
    spelled(header).into_iter().chain(sdu.iter().copied()).chain(check).collect()
}

fn radio() -> TetraAddress {
    TetraAddress::new(0x0003e9, SsiType::Issi).unwrap()
}

fn started() -> Link {
    let mut link = Link::new();
    link.start(CARRIER, 1).unwrap();
    link
}

/// What goes up: kind, FCS flag and SDU.
type Up = (Kind, Option<bool>, Option<Vec<bool>>);

/// Takes a frame of these bits: what goes up, or the number of a refusal.
fn heard(link: &mut Link, frame: &[bool]) -> Result<Vec<Up>, u8> {
    let bytes = pack(frame);
    match link.frame(&Frame::new(radio(), CARRIER, Bits::new(&bytes, frame.len()).unwrap())) {
        Ok(records) => Ok(records
            .map(|up| (up.kind, up.fcs_flag, up.bits.map(|bits| bits.iter().collect())))
            .collect()),
        Err(refused) => Err(refused.number()),
    }
}

/// The bits of all records of a tick end.
fn sent(link: &mut Link) -> Vec<Vec<bool>> {
    let records = link.tick_end().unwrap();
    records.map(|record| record.bits.unwrap().iter().collect()).collect()
}

#[test]
fn the_check_sequence_here_is_document_01s() {
    assert_eq!(check_sequence(&[]), 0);
    assert_eq!(check_sequence(&[false]), 0xfb3ee248);
    assert_eq!(check_sequence(&[true]), 0xffffffff);
    assert_eq!(check_sequence(&[true; 32]), 0xffffffff);
    // A published one, of this divisor, start and inversion (CRC-32/BZIP2).
    let digits: Vec<bool> = Bits::new(b"123456789", 72).unwrap().iter().collect();
    assert_eq!(check_sequence(&digits), 0xfc891918);
}

/// Requests an SDU with the FCS flag, after a frame with this N(S) if one is given; it must go out with this header.
fn goes_out(header: &str, steals: bool, ns: Option<bool>, len: usize) {
    let mut link = started();
    if let Some(ns) = ns {
        let frame = spelled(if ns { "00011" } else { "00010" });
        assert_eq!(heard(&mut link, &frame), Ok(vec![(Kind::DataUp, Some(false), None)]));
    }
    let sdu = sdu(len);
    let bytes = pack(&sdu);
    let request = Request {
        fcs_flag: true,
        stealing_permission: steals,
        ..Request::new(radio(), 0, Bits::new(&bytes, len).unwrap())
    };
    link.data_request(&request).unwrap();
    let held = match steals {
        false => link.messages().next().unwrap().message.frame_len,
        true => link.udata_messages().next().unwrap().frame_len,
    };
    assert_eq!(held, header.len() + len + 32, "{header}, {len}");
    let frame = checked(header, &sdu);
    assert_eq!(sent(&mut link), [&frame[..]], "{header}, {len}");

    // A handset that takes check bits gets the SDU; of a BL-ACK without one nothing goes up.
    let up = (Kind::DataUp, Some(true), (len > 0).then_some(sdu));
    let ups = if steals && len == 0 { vec![] } else { vec![up] };
    assert_eq!(heard(&mut started(), &frame), Ok(ups), "{header}, {len}");

    // With any bit behind the header turned round, or the last one gone, it is thrown away.
    let mut handset = started();
    let mut spoilt = frame;
    for at in (header.len()..spoilt.len()).rev().step_by(1 + len / 40) {
        spoilt[at] ^= true;
        assert_eq!(heard(&mut handset, &spoilt), Err(12), "{header}, {len}: bit {at}");
        spoilt[at] ^= true;
    }
    if len == 0 {
        spoilt.pop();
        assert_eq!(heard(&mut handset, &spoilt), Err(12), "{header}, {len}: cut");
    }
}

#[test]
fn with_the_flag_a_frame_ends_with_the_check_sequence_of_its_sdu() {
    for len in LENGTHS {
        goes_out("01010", false, None, len); // BL-DATA
        goes_out("010000", false, Some(false), len); // BL-ADATA
        goes_out("010010", false, Some(true), len);
        goes_out("01110", true, Some(false), len); // BL-ACK
        goes_out("01111", true, Some(true), len);
    }
}

#[test]
fn without_the_flag_it_ends_with_its_sdu() {
    let group = TetraAddress::new(0x0003e9, SsiType::Gssi).unwrap();
    for len in LENGTHS {
        let sdu = sdu(len);
        let bytes = pack(&sdu);
        let plain = Request::new(radio(), 0, Bits::new(&bytes, len).unwrap());
        let behind = |header: &str| [spelled(header), sdu.clone()].concat();

        let mut link = started();
        link.data_request(&plain).unwrap();
        assert_eq!(sent(&mut link), [behind("00010")], "{len}");

        // BL-UDATA has no flag, also if the request has it.
        let flagged = Request {
            fcs_flag: true,
            receipt: 1,
            ..plain
        };
        link.unitdata_request(&flagged).unwrap();
        let steals = Request {
            stealing_permission: true,
            receipt: 2,
            ..flagged
        };
        link.data_request(&steals).unwrap();
        let to_group = Request {
            main_address: group,
            receipt: 3,
            ..flagged
        };
        link.data_request(&to_group).unwrap();
        assert_eq!(sent(&mut link), [behind("0010"), behind("0010"), behind("0010")], "{len}");
    }

    // A reply has no flag, also if the frame has it.
    let mut link = started();
    heard(&mut link, &checked("01011", &sdu(33))).unwrap();
    assert_eq!(sent(&mut link), [spelled("00111")]);
}

#[test]
fn every_sending_has_the_same_check_sequence() {
    for len in LENGTHS {
        let mut link = started();
        let other = TetraAddress::new(0x0003ea, SsiType::Issi).unwrap();
        let (first, second) = (sdu(len), sdu(len + 1));
        let (first_bytes, second_bytes) = (pack(&first), pack(&second[..len]));
        let request = Request {
            fcs_flag: true,
            ..Request::new(radio(), 0, Bits::new(&first_bytes, len).unwrap())
        };
        let beside = Request {
            main_address: other,
            tl_sdu: Bits::new(&second_bytes, len).unwrap(),
            ..request
        };
        // A message of another address stands before it, and others take its place when it is gone.
        link.data_request(&Request { receipt: 1, ..beside }).unwrap();
        link.data_request(&request).unwrap();
        let frame = checked("01010", &first);
        for sending in 0..4 {
            let f = 1 + 2 * sending;
            link.tick_start(TdmaTime { h: 0, m: 1, f, t: 1 }).unwrap();
            let records = link.tick_end().unwrap();
            let ours: Vec<Vec<bool>> = records
                .filter(|record| record.receipt == Some(0))
                .map(|record| record.bits.unwrap().iter().collect())
                .collect();
            assert_eq!(ours, [&frame[..]], "{len}, sending {sending}");
            for receipt in 0..2 {
                link.report(receipt, Report::Transmitted).unwrap();
            }
            link.tick_end().unwrap();
            let nr = [0b0011_0000 | (sending & 1) << 3];
            let ack = Frame::new(other, CARRIER, Bits::new(&nr, 5).unwrap());
            link.frame(&ack).unwrap();
            link.release(1).unwrap();
            link.data_request(&Request { receipt: 1, ..beside }).unwrap();
        }
    }
}

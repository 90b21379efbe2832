//! Frames: read and written, and the sixteen types.
use crate::bits::Bits;
use crate::caught::caught;
use crate::exports::*;
use crate::prng::Prng;
use crate::report::Report;
use tetra_core::BitBuffer;
use tetra_entities::llc::components::fcs::{check_fcs, compute_fcs};
use tetra_pdus::llc::enums::llc_pdu_type::LlcPduType;
use tetra_pdus::llc::pdus::{bl_ack::BlAck, bl_adata::BlAdata, bl_data::BlData, bl_udata::BlUdata};

const WANTED: &[(&str, &[&str])] = &[
    ("from_bitbuf", &["BL-ADATA", "BL-DATA", "BL-UDATA", "BL-ACK", "9", "10", "11", "12", "12, under 32 bits", "5"]),
    ("from_bitbuf", &TRIMMED),
    ("from_bitbuf", &EMPTIED),
    ("to_bitbuf", &["BL-ADATA", "BL-DATA", "BL-UDATA", "BL-ACK", "5", "5, a long SDU", "8", "8, by the FCS alone"]),
    ("to_bitbuf", &APPENDED),
    ("to_bitbuf", &ZEROS),
    ("try_from and into_raw", &["a type", "5"]),
];
const NAMES: [&str; 4] = ["BL-ADATA", "BL-DATA", "BL-UDATA", "BL-ACK"];
const TRIMMED: [&str; 4] = ["BL-ADATA, trimmed", "BL-DATA, trimmed", "BL-UDATA, trimmed", "BL-ACK, trimmed"];
const EMPTIED: [&str; 4] = ["BL-ADATA, emptied", "BL-DATA, emptied", "BL-UDATA, emptied", "BL-ACK, emptied"];
const APPENDED: [&str; 4] = ["BL-ADATA, FCS appended", "BL-DATA, FCS appended", "BL-UDATA, FCS appended", "BL-ACK, FCS appended"];
const ZEROS: [&str; 4] = ["BL-ADATA, 32 zeros", "BL-DATA, 32 zeros", "BL-UDATA, 32 zeros", "BL-ACK, 32 zeros"];
/// How many bits the headers have.
const HEADERS: [usize; 4] = [6, 5, 4, 5];
/// The longest SDU of a frame that goes out.
const LONGEST: usize = 2595;
/// A refusal of a function that answers with one number.
const REFUSED: u64 = 1 << 32;

/// What a reader of the Rust gives, as the link asks it: the type by the first four bits, then the reader of that type, then the
/// check. "Check bits that go up": the Rust leaves them behind the SDU, and here they are cut. With the name of the answer.
fn rust_read(frame: &[u8], len: usize) -> (&'static str, FrameAnswer) {
    let refused =
        |name, number| (name, FrameAnswer { number, kind: 0, has_fcs: false, nr: false, ns: false, first: 0, len: 0, place: 0 });
    let mut buffer = BitBuffer::from_bytes(frame);
    // "A window that does not lie inside its bytes".
    if caught(|| buffer.set_raw_end(len)).is_none() {
        return refused("5", 5);
    }
    let Some(raw) = buffer.peek_bits(4) else {
        return refused("9", 9);
    };
    let read = match LlcPduType::try_from(raw).unwrap() {
        LlcPduType::BlAdata | LlcPduType::BlAdataFcs => {
            BlAdata::from_bitbuf(&mut buffer).ok().map(|pdu| (0, pdu.has_fcs, pdu.nr == 1, pdu.ns == 1))
        }
        LlcPduType::BlData | LlcPduType::BlDataFcs => {
            BlData::from_bitbuf(&mut buffer).ok().map(|pdu| (1, pdu.has_fcs, false, pdu.ns == 1))
        }
        LlcPduType::BlUdata | LlcPduType::BlUdataFcs => {
            BlUdata::from_bitbuf(&mut buffer).ok().map(|pdu| (2, pdu.has_fcs, false, false))
        }
        LlcPduType::BlAck | LlcPduType::BlAckFcs => {
            BlAck::from_bitbuf(&mut buffer).ok().map(|pdu| (3, pdu.has_fcs, pdu.nr == 1, false))
        }
        _ => return refused("10", 10),
    };
    let Some((kind, has_fcs, nr, ns)) = read else {
        return refused("11", 11);
    };
    if has_fcs && !check_fcs(&buffer) {
        return refused(if buffer.get_len_remaining() < 32 { "12, under 32 bits" } else { "12" }, 12);
    }
    if has_fcs {
        buffer.set_raw_end(len - 32);
    }
    let (first, left) = (buffer.get_raw_pos(), buffer.get_len_remaining());
    // The copy of what is left begins at the SDU's first bit's place in its bytes.
    let copy = BitBuffer::from_bitbuffer_pos(&buffer);
    let place = if left == 0 { 0 } else { copy.get_raw_start() };
    let names = match (has_fcs, left) {
        (false, _) => NAMES,
        (true, 0) => EMPTIED,
        (true, _) => TRIMMED,
    };
    (names[kind as usize], FrameAnswer { number: 0, kind, has_fcs, nr, ns, first, len: left, place })
}

/// Reads one frame on both sides.
fn read(frame: &[u8], len: usize, report: &mut Report) {
    let here = unsafe { leaf_from_bitbuf(frame.as_ptr(), frame.len(), len) };
    let (answer, rust) = rust_read(frame, len);
    report.compare("from_bitbuf", answer, || format!("{len} bits of {frame:02x?}"), &here, &rust);
}

/// Reads a frame of a type with an SDU of so many bits and a right FCS: as it is; with bytes behind it, also one bit shorter and
/// longer; with one bit turned round, of all and of those behind the header.
fn read_checked(kind: usize, sdu: usize, prng: &mut Prng, report: &mut Report) {
    let header = HEADERS[kind];
    let mut bits = Bits::default();
    bits.push_value(4 | kind as u32, 4);
    bits.push_random(header - 4 + sdu, prng);
    bits.push_fcs(header);
    let len = bits.len();
    read(&bits.bytes(), len, report);
    for turned in [prng.below(len), header + prng.below(len - header)] {
        let mut other = bits.clone();
        other.flip(turned);
        read(&other.bytes(), len, report);
    }
    let behind = 1 + prng.below(40);
    bits.push_random(behind, prng);
    for len in [len - 1, len, len + 1] {
        read(&bits.bytes(), len, report);
    }
}

/// What the Rust writes: the header and the SDU into the lent bytes. "A flag without a check sequence": the Rust's link leaves out
/// what its flag announces, and here the Rust's FCS of the SDU is written behind it, if it is asked for. Nothing, if it panics.
fn rust_write(
    pdu: (u8, bool, bool, bool),
    out: &[u8],
    sdu: &[u8],
    from: usize,
    len: usize,
    appends: bool,
) -> Option<(u64, Vec<u8>)> {
    let (kind, has_fcs, nr, ns) = pdu;
    let (nr, ns) = (nr as u8, ns as u8);
    caught(|| {
        let mut source = BitBuffer::from_bytes(sdu);
        let end = from.checked_add(len).unwrap();
        source.set_raw_end(end);
        source.set_raw_pos(from);
        let mut buffer = BitBuffer::from_bytes(out);
        match kind {
            0 => BlAdata { has_fcs, nr, ns }.to_bitbuf(&mut buffer),
            1 => BlData { has_fcs, ns }.to_bitbuf(&mut buffer),
            2 => BlUdata { has_fcs }.to_bitbuf(&mut buffer),
            _ => BlAck { has_fcs, nr }.to_bitbuf(&mut buffer),
        }
        buffer.copy_bits(&mut source, len);
        if appends {
            buffer.write_bits(compute_fcs(&source, from, end).into(), 32);
        }
        (buffer.get_raw_pos() as u64, buffer.into_bytes())
    })
}

/// Writes one frame on both sides.
fn write(pdu: (u8, bool, bool, bool), out: &[u8], sdu: &[u8], from: usize, len: usize, report: &mut Report) {
    let (kind, has_fcs, nr, ns) = pdu;
    let mut here = out.to_vec();
    let count = here.len();
    let written = unsafe { leaf_to_bitbuf(kind, has_fcs, nr, ns, here.as_mut_ptr(), count, sdu.as_ptr(), sdu.len(), from, len) };
    let rust = rust_write(pdu, out, sdu, from, len, has_fcs);
    let is_inside = from.checked_add(len).is_some_and(|end| end <= 8 * sdu.len());
    let names = match (has_fcs, len) {
        (false, _) => NAMES,
        (true, 0) => ZEROS,
        (true, _) => APPENDED,
    };
    let (answer, expected) = match rust {
        // "A long SDU": the Rust has no limit, and writes it where there is room.
        _ if len > LONGEST && is_inside => ("5, a long SDU", (REFUSED + 5, out.to_vec())),
        Some(rust) => (names[kind as usize], rust),
        None if !is_inside => ("5", (REFUSED + 5, out.to_vec())),
        None if has_fcs && rust_write(pdu, out, sdu, from, len, false).is_some() => {
            ("8, by the FCS alone", (REFUSED + 8, out.to_vec()))
        }
        None => ("8", (REFUSED + 8, out.to_vec())),
    };
    let input = || format!("{pdu:?} with {len} bits from {from} of {} bytes into {count}", sdu.len());
    report.compare("to_bitbuf", answer, input, &(written, here), &expected);
}

/// Every frame of up to ten bits, with other bits behind them; longer ones; ones with a right FCS; every PDU; the types.
pub fn compare(prng: &mut Prng) -> bool {
    let mut report = Report::new("frames", WANTED);
    for bits in 0..1024u32 {
        for len in 0..=10 {
            for spare in [0, 63] {
                let frame = [(bits >> 2) as u8, (bits << 6) as u8 | spare];
                read(&frame, len, &mut report);
                read(&frame[..len.div_ceil(8)], len, &mut report);
            }
        }
    }
    let random = |count: usize, prng: &mut Prng| -> Vec<u8> { (0..count).map(|_| prng.next() as u8).collect() };
    for _ in 0..100_000 {
        let count = if prng.once_in(100) { 340 } else { prng.below(12) };
        let frame = random(count, prng);
        let len = if prng.once_in(50) { usize::MAX - prng.below(9) } else { prng.below(8 * count + 3) };
        read(&frame, len, &mut report);
    }
    for kind in 0..4 {
        for sdu in [0, 1, 7, 8, 9, 31, 32, 33, 64, 2595, 2633 - 32 - HEADERS[kind]] {
            (0..20).for_each(|_| read_checked(kind, sdu, prng, &mut report));
        }
    }
    for _ in 0..20_000 {
        let sdu = if prng.once_in(100) { prng.below(2596) } else { prng.below(70) };
        read_checked(prng.below(4), sdu, prng, &mut report);
    }
    let sdu = random(330, prng);
    let lens = [0, 1, 2, 3, 7, 8, 9, 31, 32, 33, 63, 64, 65, 66, 2594, 2595, 2596, 2633, usize::MAX];
    for number in 0..32u8 {
        let pdu = (number >> 3, number & 4 != 0, number & 2 != 0, number & 1 != 0);
        for len in lens {
            for from in [0, 1, 5, 8, 11, 44, 45, 46, usize::MAX] {
                // Room for all, for just this, for one byte less, for all but the FCS, for none.
                let check_bits = if pdu.1 { 32 } else { 0 };
                let before = len.saturating_add(HEADERS[pdu.0 as usize]);
                let [least, without] = [before.saturating_add(check_bits), before].map(|bits| bits.div_ceil(8).min(340));
                for room in [340, least, least.saturating_sub(1), without, 0] {
                    write(pdu, &random(room, prng), &sdu, from, len, &mut report);
                }
            }
        }
    }
    for _ in 0..50_000 {
        let pdu = (prng.below(4) as u8, prng.once_in(2), prng.once_in(2), prng.once_in(2));
        let sdu = random(prng.below(20), prng);
        let (from, len) = (prng.below(8 * sdu.len() + 2), prng.below(8 * sdu.len() + 2));
        write(pdu, &random(prng.below(26), prng), &sdu, from, len, &mut report);
    }
    for x in (0..=300).chain([1 << 32, u64::MAX]).chain((0..1000).map(|_| prng.next())) {
        let rust = LlcPduType::try_from(x).map(|found| found.into_raw());
        let answer = if rust.is_ok() { "a type" } else { "5" };
        report.compare("try_from and into_raw", answer, || x.to_string(), &leaf_type(x), &rust.unwrap_or(REFUSED + 5));
    }
    report.finish()
}

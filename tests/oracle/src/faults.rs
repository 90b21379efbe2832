//! Faults that can be put into the oracle's own reading of calls, questions, repeats and records, to see that a list of calls
//! tells each of them apart.
use crate::bits::Bits;
use crate::call::{Call, Frame};
use crate::caught::caught;
use crate::check_sequence::bit;
use crate::four_faults::print_noticed;
use crate::header::{self, Header};
use crate::misappend::{AGAIN, UNDUE, WAYS};
use crate::oracle::{Oracle, Started};
use crate::outcome::text;
use crate::store::lines_of;
use std::borrow::Cow;
use std::cell::Cell;
use std::path::Path;

/// One fault.
#[derive(Clone, Copy, Debug, PartialEq, Eq)]
pub enum Fault {
    /// A tag is taken as another.
    TagAs(u8, u8),
    /// A byte of the value of a call with a tag is read as 0, so that its field is read short.
    ByteRead(u8, usize),
    /// Of a call with a tag, one part of question 5 is not asked.
    NotAsked(u8, &'static str),
    /// Of a request with a tag, one question of 6 to 8 is asked before the others.
    AskedFirst(u8, u8),
    /// 14 is asked before 13.
    FourteenFirst,
    /// 13 is asked before 9 to 12.
    ThirteenFirst,
    /// Of frames, 7 is asked before 12.
    SevenBeforeTwelve,
    /// Of frames, 13 is asked before 7.
    ThirteenBeforeSeven,
    /// 7 is not asked of frames.
    SevenNotAsked,
    /// 7 is asked of frames of a type without N(S), too.
    SevenAskedOf(u32),
    /// 7 of a call with a tag counts the rows of its own kind alone, those of requests or of frames.
    OwnRowsAlone(u8),
    /// A frame of a type without N(S) makes a row.
    RowBy(u32),
    /// The row that a frame makes has the send bit 1.
    FrameRowBit,
    /// No last N(S) is taken for this one, in a row that a request made or where there is no row.
    NoneIs(u8, bool),
    /// The last N(S) is that of the last frame of all addresses.
    LastShared,
    /// The last N(S)s are kept over a start.
    KeptOverStart,
    /// An accepted call of a sort makes the last N(S) forgotten.
    ForgottenBy(&'static str),
    /// A frame that is refused with a number makes its N(S) the last.
    UpdatedBy(u8),
    /// A frame that is refused with a number makes a row.
    RowByRefused(u8),
    /// The first N(S) stays the last.
    FirstStays,
    /// Any frame is a repeat where there is a last N(S).
    AnyIsRepeat,
    /// A repeat is one only if a part of it is the same too.
    RepeatNeeds(&'static str),
    /// A repeat goes up.
    RepeatUp,
    /// A repeat is not acknowledged.
    RepeatUnacknowledged,
    /// The N(R) of a repeat is passed over.
    RepeatUnheeded,
    /// The check sequence of a frame of a type is not checked.
    NotChecked(u32),
    /// What a frame of a type sends up has an empty block.
    BlockLost(u32),
    /// What a frame of a type sends up has endpoint 0.
    EndpointLost(u32),
    /// What a frame of a type sends up, with the FCS flag or without it, loses so many bits.
    Cut(u32, bool, usize),
    /// What is emptied goes up with an SDU of no bits, after a frame of a type.
    EmptyField(u32),
    /// What is emptied is dropped, after a frame of a type.
    EmptiedDropped(u32),
    /// What is emptied goes up, after a BL-ACK.
    EmptiedKept,
    /// The FCS that goes down with a PDU of a type is not what it has to be, in one of the `WAYS`.
    Appended(u32, &'static str),
    /// The same, in a message that is sent again, in one of the ways of `AGAIN`.
    AppendedAgain(u32, &'static str),
    /// A BL-UDATA of a request with a tag that asked for an FCS, and that steals or not, has it, or the flag, or both.
    UdataAppended(u8, bool, &'static str),
    /// A reply to an address whose last frame came with FCS has one, or the flag, or both.
    ReplyAppended(&'static str),
    /// A byte of a field is written as 0 in records of a kind.
    ByteWritten(u8, u8, usize),
}

/// The last byte of a field.
pub const LAST: usize = usize::MAX;

thread_local! {
    /// The fault that is put in.
    static FAULT: Cell<Option<Fault>> = const { Cell::new(None) };
}

/// The fault that is put in, if one is.
pub fn put_in() -> Option<Fault> {
    FAULT.get()
}

/// Is it put in?
pub fn is(fault: Fault) -> bool {
    FAULT.get() == Some(fault)
}

/// The tag that is read.
pub fn tag(tag: u8) -> u8 {
    match FAULT.get() {
        Some(Fault::TagAs(from, to)) if from == tag => to,
        _ => tag,
    }
}

/// The value that is read of a call with a tag.
pub fn value(tag: u8, value: &[u8]) -> Vec<u8> {
    let mut value = value.to_vec();
    if let Some(Fault::ByteRead(of, place)) = FAULT.get()
        && of == tag
        && place < value.len()
    {
        value[place] = 0;
    }
    value
}

/// The question of 6 to 8 that is asked first of a request with a tag, if not 6.
pub fn asked_first(tag: u8) -> Option<u8> {
    match FAULT.get() {
        Some(Fault::AskedFirst(of, number)) if of == tag => Some(number),
        _ => None,
    }
}

/// How many bits are cut off what a frame of a type sends up, with the FCS flag or without it, if not as many as there have to be.
pub fn cut(kind: u32, has_fcs: bool) -> Option<usize> {
    match FAULT.get() {
        Some(Fault::Cut(of, with_fcs, bits)) if of == kind && with_fcs == has_fcs => Some(bits),
        _ => None,
    }
}

/// Is a frame with the last N(S) the same as the last one, in the part that the fault asks for?
pub fn is_same(last: &Frame, frame: &Frame) -> bool {
    let Some(Fault::RepeatNeeds(part)) = FAULT.get() else {
        return true;
    };
    let (Ok(before), Ok(now)) = (read(last), read(frame)) else {
        return true;
    };
    match part {
        "PDU type" => header::kind(&last.bits) == header::kind(&frame.bits),
        "N(R)" => before.nr == now.nr,
        "FCS flag" => before.has_fcs == now.has_fcs,
        "SDU" => sdu(last, &before) == sdu(frame, &now),
        "carrier" => last.carrier == frame.carrier,
        "type" => last.kind == frame.kind,
        "link" => last.link == frame.link,
        "endpoint" => last.endpoint == frame.endpoint,
        _ => last.block == frame.block,
    }
}

/// The header of a frame, its check sequence not looked at.
fn read(frame: &Frame) -> Result<Header, u8> {
    header::unchecked(&frame.bits, frame.bit_count as usize)
}

/// The SDU of a frame with a header.
fn sdu(frame: &Frame, header: &Header) -> Vec<u32> {
    let end = frame.bit_count as usize - if header.has_fcs { 32 } else { 0 };
    (header.len..end).map(|at| bit(&frame.bits, at)).collect()
}

/// An accepted frame as the Rust is given it. A repeat that is not acknowledged is a BL-ACK there if it has an N(R), and else is
/// not given; one whose N(R) is passed over is a BL-DATA.
pub fn fed<'a>(started: &Started, frame: &'a Frame) -> Option<Cow<'a, Frame>> {
    let is_put_in = is(Fault::RepeatUnacknowledged) || is(Fault::RepeatUnheeded);
    let Some(header) = read(frame).ok().filter(|header| is_put_in && started.is_repeat(frame, header)) else {
        return Some(Cow::Borrowed(frame));
    };
    let (kind, number) = if is(Fault::RepeatUnacknowledged) { (3, header.nr?) } else { (1, header.ns?) };
    let mut bits = Bits::default();
    bits.push_value(kind << 1 | number as u32, 5);
    Some(Cow::Owned(Frame { bit_count: 5, bits: bits.bytes(), ..frame.clone() }))
}

/// Takes note of a refused frame, if the fault is that.
pub fn refuse(link: Option<&mut Started>, call: &Call, number: u8) {
    let (Some(started), Call::Frame(frame)) = (link, call) else {
        return;
    };
    let is_row_made = is(Fault::RowByRefused(number)) && !started.has_row(frame.ssi);
    if let Ok(Header { ns: Some(ns), .. }) = read(frame)
        && (is_row_made || is(Fault::UpdatedBy(number)))
    {
        started.hear(frame, (!is_row_made).then_some(ns));
    }
}

/// Turns N(S) round in the record of an acknowledged message.
fn flip_ns(record: &mut [u8]) {
    let mut at = 0;
    while record[at] != 0x0c {
        at += 3 + u16::from_be_bytes([record[at + 1], record[at + 2]]) as usize;
    }
    let frame = &mut record[at + 5..];
    frame[0] ^= if header::kind(frame) == 0 { 0x04 } else { 0x08 };
}

/// Spoils a record that a call gave.
pub fn spoil(record: &mut Vec<u8>, call: &Call, link: Option<&Started>) {
    let Some(fault) = FAULT.get() else {
        return;
    };
    let has_made_row = |started: &Started| {
        let ssi = u32::from_be_bytes([0, record[7], record[8], record[9]]);
        started.repeats.heard.get(&ssi).is_some_and(|heard| heard.has_made_row)
    };
    if fault == Fault::FrameRowBit && record[3] == 1 && link.is_some_and(has_made_row) {
        flip_ns(record);
    }
    let kind_up = match call {
        Call::Frame(frame) => Some(header::kind(&frame.bits)),
        _ => None,
    };
    let kind = record[3];
    let mut at = 0;
    while at < record.len() {
        let (tag, len) = (record[at], u16::from_be_bytes([record[at + 1], record[at + 2]]) as usize);
        match fault {
            Fault::ByteWritten(of, field, place) if of == kind && field == tag && len > 0 => {
                record[at + 3 + place.min(len - 1)] = 0
            }
            Fault::BlockLost(of) if Some(of) == kind_up && tag == 0x0b => {
                record.drain(at + 3..at + 3 + len);
                record[at + 1..at + 3].fill(0);
            }
            Fault::EndpointLost(of) if Some(of) == kind_up && tag == 0x06 => record[at + 3..at + 7].fill(0),
            _ => {}
        }
        at += 3 + u16::from_be_bytes([record[at + 1], record[at + 2]]) as usize;
    }
}

/// Every fault that a list has to tell apart.
pub fn all() -> Vec<Fault> {
    let mut all = vec![Fault::FourteenFirst, Fault::ThirteenFirst];
    all.extend([Fault::SevenBeforeTwelve, Fault::ThirteenBeforeSeven, Fault::SevenNotAsked]);
    all.extend([0x24, 0x26].map(Fault::OwnRowsAlone));
    all.extend([2, 3].into_iter().flat_map(|kind| [Fault::SevenAskedOf(kind), Fault::RowBy(kind)]));
    all.extend([Fault::FrameRowBit, Fault::LastShared, Fault::KeptOverStart, Fault::FirstStays, Fault::AnyIsRepeat]);
    all.extend([Fault::RepeatUp, Fault::RepeatUnacknowledged, Fault::RepeatUnheeded]);
    all.extend([0, 1].into_iter().flat_map(|ns| [Fault::NoneIs(ns, false), Fault::NoneIs(ns, true)]));
    all.extend([12, 13, 14].map(Fault::UpdatedBy));
    all.extend([12, 13].map(Fault::RowByRefused));
    let forgetting =
        ["tick start", "tick end", "data request", "unitdata request", "BL-UDATA", "BL-ACK", "repeat", "report", "release"];
    all.extend(forgetting.map(Fault::ForgottenBy));
    let parts = ["PDU type", "N(R)", "FCS flag", "SDU", "carrier", "type", "link", "endpoint", "block"];
    all.extend(parts.map(Fault::RepeatNeeds));
    all.extend((0x00..=0x20).map(|tag| Fault::TagAs(tag, 0x21)));
    all.extend((0x29..=0x2f).map(|tag| Fault::TagAs(tag, 0x28)));
    all.extend((0x21..=0x28).map(|tag| Fault::TagAs(tag | 0x80, tag)));
    for (tag, count) in [(0x21, 4), (0x22, 5), (0x24, 22), (0x25, 22), (0x26, 14), (0x27, 2), (0x28, 1)] {
        all.extend((0..count).map(|place| Fault::ByteRead(tag, place)));
    }
    let request = ["type", "carrier given", "flag 8", "flag 16", "flag 32", "flag 64", "flag 128", "receipt"];
    let request = request.into_iter().chain(["mask under 16", "mask with flag 4", "carrier 0", "block", "SDU"]);
    all.extend(request.flat_map(|part| [Fault::NotAsked(0x24, part), Fault::NotAsked(0x25, part)]));
    all.extend(["type", "block", "frame"].map(|part| Fault::NotAsked(0x26, part)));
    all.extend(["m", "f", "t"].map(|part| Fault::NotAsked(0x22, part)));
    all.extend(["receipt", "report"].map(|part| Fault::NotAsked(0x27, part)));
    all.extend([Fault::NotAsked(0x28, "receipt"), Fault::NotAsked(0x21, "T251")]);
    all.extend([Fault::AskedFirst(0x24, 7), Fault::AskedFirst(0x24, 8), Fault::AskedFirst(0x25, 8)]);
    for kind in 0..4 {
        all.extend([Fault::NotChecked(kind), Fault::BlockLost(kind), Fault::EndpointLost(kind)]);
        all.extend([0, 31, 33].map(|bits| Fault::Cut(kind, true, bits)));
        all.push(Fault::Cut(kind, false, 32));
    }
    all.push(Fault::EmptiedKept);
    all.extend((0..3).flat_map(|kind| [Fault::EmptyField(kind), Fault::EmptiedDropped(kind)]));
    for kind in [0, 1, 3] {
        all.extend(WAYS.map(|way| Fault::Appended(kind, way)));
        all.extend(AGAIN.map(|way| Fault::AppendedAgain(kind, way)).into_iter().filter(|_| kind != 3));
    }
    for (tag, is_stealing) in [(0x24, false), (0x24, true), (0x25, false), (0x25, true)] {
        all.extend(UNDUE.map(|way| Fault::UdataAppended(tag, is_stealing, way)));
    }
    all.extend(UNDUE.map(Fault::ReplyAppended));
    // The bytes that are not always 0, of each field of each kind of record.
    let fields: [(u8, &[(u8, usize, usize)]); 5] = [
        (1, &[(2, 0, 3), (3, 0, 1), (4, 0, 2), (6, 0, 4), (7, 0, 4), (9, 0, 1), (0xa, 0, 1), (0xb, 0, 1), (0xc, 0, 3)]),
        (2, &[(2, 0, 3), (3, 0, 1), (4, 0, 2), (5, 3, 4), (8, 0, 1), (9, 0, 1), (0xc, 1, 3)]),
        (
            3,
            &[
                (2, 0, 3),
                (3, 0, 1),
                (4, 0, 2),
                (5, 0, 4),
                (6, 0, 4),
                (7, 0, 4),
                (8, 0, 1),
                (9, 0, 1),
                (0xa, 0, 1),
                (0xb, 0, 1),
                (0xc, 0, 3),
            ],
        ),
        (4, &[(2, 0, 3), (3, 0, 1), (5, 0, 4), (6, 0, 4), (0xb, 0, 1), (0xd, 0, 1), (0xc, 0, 3)]),
        (5, &[(2, 0, 3), (3, 0, 1), (6, 0, 4), (0xb, 0, 1), (0xd, 0, 1), (0xc, 0, 3)]),
    ];
    for (kind, list) in fields {
        for &(field, from, to) in list {
            all.extend((from..to).map(|place| Fault::ByteWritten(kind, field, place)));
        }
        all.extend([0xb, 0xc].map(|field| Fault::ByteWritten(kind, field, LAST)).into_iter().filter(|_| kind != 2));
    }
    all
}

/// Does a list of lines tell a fault apart: is some answer another with it? A fault that ends in a panic is told apart by it.
fn is_told(lines: &[Vec<u8>], expected: &[String], fault: Fault) -> bool {
    FAULT.set(Some(fault));
    let mut oracle = Oracle::new();
    let is_told = lines.iter().zip(expected).any(|(line, expected)| {
        let answer = caught(|| oracle.line(line));
        answer.is_none_or(|answer| text(answer.number, answer.records.iter().map(|record| record.as_slice())) != *expected)
    });
    FAULT.set(None);
    is_told
}

/// Prints whether the lines of a file tell every fault apart, and whether those of P4 are noticed; ends the program.
pub fn print_told(file: &Path) {
    let lines = lines_of(file);
    let mut oracle = Oracle::new();
    let answers = lines.iter().map(|line| oracle.line(line));
    let expected: Vec<String> =
        answers.map(|answer| text(answer.number, answer.records.iter().map(|record| record.as_slice()))).collect();
    let all = all();
    let missed: Vec<String> =
        all.iter().filter(|fault| !is_told(&lines, &expected, **fault)).map(|fault| format!("{fault:x?}")).collect();
    if missed.is_empty() {
        println!("ok: {} tells each of {} faults apart", file.display(), all.len());
    } else {
        println!("FAILED: {} does not tell apart: {}", file.display(), missed.join(", "));
    }
    let is_noticed = print_noticed(&lines);
    std::process::exit((!missed.is_empty() || !is_noticed) as i32);
}

//! One method on a window: what it does here and in the Rust, and document 01's number for it, in code of its own.
use crate::caught::caught;
use crate::exports::*;
use tetra_core::BitBuffer;

/// A method of BitBuffer with what it is given.
#[derive(Clone, Debug)]
pub enum Act {
    New(usize),
    FromBytes,
    NewAutoexpand,
    GetLen,
    GetLenRemaining,
    GetPos,
    GetRawStart,
    GetRawPos,
    GetRawEnd,
    Seek(usize),
    SeekRel(isize),
    SetRawStart(usize),
    SetRawPos(usize),
    SetRawEnd(usize),
    PeekBits(usize),
    PeekBitsStartoffset(usize, usize),
    PeekBitsPosoffset(isize, usize),
    ReadBits(usize),
    ReadBit,
    WriteBits(u64, usize),
    WriteBit(u8),
    WriteZeroes(usize),
    WriteOnes(usize),
    /// From a window over other bytes.
    CopyBits(Window, Vec<u8>, usize),
    /// Into other bytes.
    FromBitbufferPos(Vec<u8>),
}

/// What came of it: the number, the value if one was found, the window after it, the bytes after it, and the other window and
/// bytes, if there are.
#[derive(Debug, PartialEq, Eq)]
pub struct Came {
    pub number: u8,
    pub value: Option<u64>,
    pub window: Window,
    pub bytes: Vec<u8>,
    pub other: Option<(Window, Vec<u8>)>,
}

/// Why the Rust is not asked, or what it does instead, by a point of docs/DIFFERENCES.md.
#[derive(Debug, PartialEq, Eq)]
pub enum Difference {
    /// "A window that does not lie inside its bytes", "A new window over more bits than are lent": the Rust has no such window.
    NoWindow,
    /// "A write that has no room": the Rust's buffer grows where the lent bytes end.
    Grows,
    /// "A copy without room": the Rust's copy makes its own bytes.
    OwnBytes,
}

/// Start, position and end in order and inside the bytes?
pub fn is_valid(w: &Window, bytes: &[u8]) -> bool {
    w.start <= w.pos && w.pos <= w.end && w.end <= 8 * bytes.len()
}

/// The end after writing so many bits, in widths of 64 and what is left.
fn end_after(w: &Window, num_bits: usize) -> u128 {
    let (mut pos, mut end, mut left) = (w.pos as u128, w.end as u128, num_bits as u128);
    // A long write that has crossed the end crosses it with each further width.
    while left > 0 {
        let width = left.min(64);
        if pos + width > end {
            end += width;
        }
        if left > 1_000_000 && pos > w.end as u128 {
            return u128::MAX;
        }
        pos += width;
        left -= width;
    }
    end
}

impl Act {
    /// The method's name.
    pub fn name(&self) -> &'static str {
        match self {
            Act::New(..) => "new",
            Act::FromBytes => "from_bytes",
            Act::NewAutoexpand => "new_autoexpand",
            Act::GetLen => "get_len",
            Act::GetLenRemaining => "get_len_remaining",
            Act::GetPos => "get_pos",
            Act::GetRawStart => "get_raw_start",
            Act::GetRawPos => "get_raw_pos",
            Act::GetRawEnd => "get_raw_end",
            Act::Seek(..) => "seek",
            Act::SeekRel(..) => "seek_rel",
            Act::SetRawStart(..) => "set_raw_start",
            Act::SetRawPos(..) => "set_raw_pos",
            Act::SetRawEnd(..) => "set_raw_end",
            Act::PeekBits(..) => "peek_bits",
            Act::PeekBitsStartoffset(..) => "peek_bits_startoffset",
            Act::PeekBitsPosoffset(..) => "peek_bits_posoffset",
            Act::ReadBits(..) => "read_bits",
            Act::ReadBit => "read_bit",
            Act::WriteBits(..) => "write_bits",
            Act::WriteBit(..) => "write_bit",
            Act::WriteZeroes(..) => "write_zeroes",
            Act::WriteOnes(..) => "write_ones",
            Act::CopyBits(..) => "copy_bits",
            Act::FromBitbufferPos(..) => "from_bitbuffer_pos",
        }
    }

    /// Document 01's number, and the point of difference where the Rust does not refuse by a panic.
    pub fn number(&self, w: &Window, bytes: &[u8]) -> (u8, Option<Difference>) {
        let (at, last) = (|n: usize| n as i128, 8 * bytes.len());
        match self {
            Act::New(n) if *n > last => return (5, Some(Difference::NoWindow)),
            Act::New(..) | Act::FromBytes | Act::NewAutoexpand | Act::GetRawStart | Act::GetRawPos | Act::GetRawEnd => {
                return (0, None);
            }
            _ if !is_valid(w, bytes) => return (5, Some(Difference::NoWindow)),
            _ => {}
        }
        let is_inside = match self {
            Act::Seek(offset) => at(w.start) + at(*offset) <= at(w.end),
            Act::SeekRel(offset) => (at(w.start)..=at(w.end)).contains(&(at(w.pos) + *offset as i128)),
            Act::SetRawStart(start) => *start <= w.pos,
            Act::SetRawPos(pos) => (w.start..=w.end).contains(pos),
            Act::SetRawEnd(end) => (w.pos..=last).contains(end),
            Act::WriteBits(value, num_bits) => *num_bits <= 64 && (*num_bits == 64 || value >> num_bits == 0),
            Act::WriteBit(value) => *value < 2,
            Act::CopyBits(v, src, _) if !is_valid(v, src) => return (5, Some(Difference::NoWindow)),
            Act::CopyBits(v, _, num_bits) => at(v.pos) + at(*num_bits) <= at(v.end),
            _ => true,
        };
        if !is_inside {
            return (5, None);
        }
        let end = match self {
            Act::WriteBits(_, n) | Act::WriteZeroes(n) | Act::WriteOnes(n) | Act::CopyBits(_, _, n) => end_after(w, *n),
            Act::WriteBit(_) => end_after(w, 1),
            Act::FromBitbufferPos(out) if w.end.div_ceil(8) - w.pos / 8 > out.len() => return (8, Some(Difference::OwnBytes)),
            _ => return (0, None),
        };
        match end > w.end as u128 {
            true if !w.expands => (8, None),
            true if end > last as u128 => (8, Some(Difference::Grows)),
            _ => (0, None),
        }
    }

    /// What the proved leaf does.
    pub fn here(&self, w: Window, bytes: &[u8]) -> Came {
        let mut after = bytes.to_vec();
        let (p, count) = (after.as_mut_ptr(), after.len());
        let mut other = None;
        let raw = |value: usize| WindowAnswer { number: 0, is_found: true, value: value as u64, window: w };
        let made = |window: Window| WindowAnswer { number: 0, is_found: false, value: 0, window };
        // The lent bytes live until the end, and no other reference to them is used before.
        let answer = unsafe {
            match self {
                Act::New(n) => leaf_new(w, p, count, *n),
                Act::FromBytes => made(leaf_from_bytes(p, count)),
                Act::NewAutoexpand => made(leaf_new_autoexpand()),
                Act::GetLen => leaf_get_len(w, p, count),
                Act::GetLenRemaining => leaf_get_len_remaining(w, p, count),
                Act::GetPos => leaf_get_pos(w, p, count),
                Act::GetRawStart => raw(leaf_get_raw_start(w)),
                Act::GetRawPos => raw(leaf_get_raw_pos(w)),
                Act::GetRawEnd => raw(leaf_get_raw_end(w)),
                Act::Seek(offset) => leaf_seek(w, p, count, *offset),
                Act::SeekRel(offset) => leaf_seek_rel(w, p, count, *offset),
                Act::SetRawStart(start) => leaf_set_raw_start(w, p, count, *start),
                Act::SetRawPos(pos) => leaf_set_raw_pos(w, p, count, *pos),
                Act::SetRawEnd(end) => leaf_set_raw_end(w, p, count, *end),
                Act::PeekBits(n) => leaf_peek_bits(w, p, count, *n),
                Act::PeekBitsStartoffset(offset, n) => leaf_peek_bits_startoffset(w, p, count, *offset, *n),
                Act::PeekBitsPosoffset(offset, n) => leaf_peek_bits_posoffset(w, p, count, *offset, *n),
                Act::ReadBits(n) => leaf_read_bits(w, p, count, *n),
                Act::ReadBit => leaf_read_bit(w, p, count),
                Act::WriteBits(value, n) => leaf_write_bits(w, p, count, *value, *n),
                Act::WriteBit(value) => leaf_write_bit(w, p, count, *value),
                Act::WriteZeroes(n) => leaf_write_zeroes(w, p, count, *n),
                Act::WriteOnes(n) => leaf_write_ones(w, p, count, *n),
                Act::CopyBits(v, src, n) => {
                    let copy = leaf_copy_bits(w, p, count, *v, src.as_ptr(), src.len(), *n);
                    other = Some((copy.from, src.clone()));
                    WindowAnswer { number: copy.number, is_found: false, value: 0, window: copy.to }
                }
                Act::FromBitbufferPos(out) => {
                    let mut out = out.clone();
                    let answer = leaf_from_bitbuffer_pos(w, p, count, out.as_mut_ptr(), out.len());
                    other = Some((answer.window, out));
                    WindowAnswer { window: w, ..answer }
                }
            }
        };
        let value = answer.is_found.then_some(answer.value);
        Came { number: answer.number, value, window: answer.window, bytes: after, other }
    }

    /// What the Rust does on a window that is valid; nothing, if it panics.
    pub fn rust(&self, w: Window, bytes: &[u8]) -> Option<Came> {
        let mut buffer = buffer(&w, bytes);
        let mut other = None;
        let value = caught(|| match self {
            Act::New(n) => {
                buffer = BitBuffer::new(*n);
                None
            }
            Act::FromBytes => {
                buffer = BitBuffer::from_bytes(bytes);
                None
            }
            Act::NewAutoexpand => {
                buffer = BitBuffer::new_autoexpand(8 * bytes.len());
                None
            }
            Act::GetLen => Some(buffer.get_len() as u64),
            Act::GetLenRemaining => Some(buffer.get_len_remaining() as u64),
            Act::GetPos => Some(buffer.get_pos() as u64),
            Act::GetRawStart => Some(buffer.get_raw_start() as u64),
            Act::GetRawPos => Some(buffer.get_raw_pos() as u64),
            Act::GetRawEnd => Some(buffer.get_raw_end() as u64),
            Act::Seek(offset) => done(buffer.seek(*offset)),
            Act::SeekRel(offset) => done(buffer.seek_rel(*offset)),
            Act::SetRawStart(start) => done(buffer.set_raw_start(*start)),
            Act::SetRawPos(pos) => done(buffer.set_raw_pos(*pos)),
            Act::SetRawEnd(end) => done(buffer.set_raw_end(*end)),
            Act::PeekBits(n) => buffer.peek_bits(*n),
            Act::PeekBitsStartoffset(offset, n) => buffer.peek_bits_startoffset(*offset, *n),
            Act::PeekBitsPosoffset(offset, n) => buffer.peek_bits_posoffset(*offset, *n),
            Act::ReadBits(n) => buffer.read_bits(*n),
            Act::ReadBit => buffer.read_bit().map(u64::from),
            Act::WriteBits(value, n) => done(buffer.write_bits(*value, *n)),
            Act::WriteBit(value) => done(buffer.write_bit(*value)),
            Act::WriteZeroes(n) => done(buffer.write_zeroes(*n)),
            Act::WriteOnes(n) => done(buffer.write_ones(*n)),
            Act::CopyBits(v, src, n) => {
                let mut source = self::buffer(v, src);
                buffer.copy_bits(&mut source, *n);
                other = Some((window(&source, v.expands), source.into_bytes()));
                None
            }
            Act::FromBitbufferPos(out) => {
                let copy = BitBuffer::from_bitbuffer_pos(&buffer);
                let (window, mut bytes) = (window(&copy, false), copy.into_bytes());
                // Behind them the lent bytes are as they were.
                bytes.extend_from_slice(out.get(bytes.len()..).unwrap_or(&[]));
                other = Some((window, bytes));
                None
            }
        })?;
        let expands = match self {
            Act::New(..) | Act::FromBytes => false,
            Act::NewAutoexpand => true,
            _ => w.expands,
        };
        // The Rust's new windows are over bytes of their own, the windows here over the lent ones.
        let is_new = matches!(self, Act::New(..) | Act::NewAutoexpand);
        let window = window(&buffer, expands);
        Some(Came { number: 0, value, window, bytes: if is_new { bytes.to_vec() } else { buffer.into_bytes() }, other })
    }
}

/// No value.
fn done(_: ()) -> Option<u64> {
    None
}

/// The window of a buffer of the Rust.
fn window(buffer: &BitBuffer, expands: bool) -> Window {
    Window { start: buffer.get_raw_start(), pos: buffer.get_raw_pos(), end: buffer.get_raw_end(), expands }
}

/// A buffer of the Rust with these bytes and this window, which is valid. One that expands is written byte by byte.
fn buffer(w: &Window, bytes: &[u8]) -> BitBuffer {
    let mut buffer = if w.expands {
        let mut buffer = BitBuffer::new_autoexpand(8 * bytes.len());
        bytes.iter().for_each(|&byte| buffer.write_bits(byte as u64, 8));
        buffer
    } else {
        BitBuffer::from_bytes(bytes)
    };
    buffer.set_raw_pos(w.pos);
    buffer.set_raw_end(w.end);
    buffer.set_raw_start(w.start);
    buffer
}

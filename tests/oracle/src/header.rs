//! The header of a frame that came in, by document 01's questions 9 to 12: not the Rust's reader.
use crate::check_sequence::{bit, is_right};
use crate::faults::{self, Fault};

/// A header that was read.
pub struct Header {
    /// N(R), if it has one.
    pub nr: Option<u8>,
    /// N(S), if it has one.
    pub ns: Option<u8>,
    /// Has it an FCS?
    pub has_fcs: bool,
    /// How many bits it has.
    pub len: usize,
}

/// The two type bits of a frame that has them: 0 BL-ADATA, 1 BL-DATA, 2 BL-UDATA, 3 BL-ACK.
pub fn kind(bits: &[u8]) -> u32 {
    bit(bits, 2) << 1 | bit(bits, 3)
}

/// The header of a frame of `count` bits, or the number.
pub fn read(bits: &[u8], count: usize) -> Result<Header, u8> {
    let header = unchecked(bits, count)?;
    let is_checked = header.has_fcs && !faults::is(Fault::NotChecked(kind(bits)));
    if is_checked && !is_right(bits, header.len, count) { Err(12) } else { Ok(header) }
}

/// The same without question 12.
pub fn unchecked(bits: &[u8], count: usize) -> Result<Header, u8> {
    if count < 4 {
        return Err(9);
    }
    if bit(bits, 0) == 1 {
        return Err(10);
    }
    let (nr_at, ns_at, len) = match kind(bits) {
        0 => (Some(4), Some(5), 6),
        1 => (None, Some(4), 5),
        2 => (None, None, 4),
        _ => (Some(4), None, 5),
    };
    if count < len {
        return Err(11);
    }
    let value = |at: Option<usize>| at.map(|at| bit(bits, at) as u8);
    Ok(Header { nr: value(nr_at), ns: value(ns_at), has_fcs: bit(bits, 1) == 1, len })
}

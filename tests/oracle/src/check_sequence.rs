//! The FCS, from document 01's words: not the Rust's function.

/// Over the bits from `from` to `to`: divisor 04C11DB7, highest bit first, start all ones (for 1 to 31 bits shifted left by 32 less
/// their number), result inverted.
pub fn over(bits: &[u8], from: usize, to: usize) -> u32 {
    let len = to - from;
    let start = if (1..32).contains(&len) { u32::MAX << (32 - len) } else { u32::MAX };
    from_start(start, bits, from, to)
}

/// The same with a start.
pub fn from_start(start: u32, bits: &[u8], from: usize, to: usize) -> u32 {
    let mut rest = start;
    for at in from..to {
        let top = rest >> 31;
        rest <<= 1;
        if top != bit(bits, at) {
            rest ^= 0x04c1_1db7;
        }
    }
    !rest
}

/// Are the last 32 of `count` bits the FCS over those behind a header of `header` bits?
pub fn is_right(bits: &[u8], header: usize, count: usize) -> bool {
    count >= header + 32 && {
        let sent = (count - 32..count).fold(0, |sum, at| sum << 1 | bit(bits, at));
        sent == over(bits, header, count - 32)
    }
}

/// One bit; the first of a byte is its highest.
pub fn bit(bits: &[u8], at: usize) -> u32 {
    (bits[at / 8] >> (7 - at % 8) & 1) as u32
}

//! Lines that questions 2 to 5 refuse, most of them near a call that they do not.
use crate::call::Call;
use crate::hex_line::line_of;
use crate::prng::Prng;

/// A call with a value that is out of range, or nearly.
pub fn value(mut call: Call, prng: &mut Prng) -> Call {
    match &mut call {
        Call::Start { t251, .. } => *t251 = 0,
        Call::TickStart { m, f, t, .. } => match prng.below(3) {
            0 => *m = prng.one_of(&[0, 61, 255, 60, 1]),
            1 => *f = prng.one_of(&[0, 19, 255, 18, 1]),
            _ => *t = prng.one_of(&[0, 5, 255, 4, 1]),
        },
        Call::TickEnd => {}
        Call::Data(r) | Call::Unitdata(r) => match prng.below(9) {
            0 => r.kind = prng.one_of(&[0, 3, 255]),
            1 => r.carrier_given = prng.one_of(&[2, 255]),
            2 => r.flags |= prng.one_of(&[8, 16, 128]),
            3 => r.mask = prng.one_of(&[1, 15, 16, 255]),
            4 => {
                r.carrier_given = 0;
                r.carrier = prng.one_of(&[0, 1, 256]);
            }
            5 => r.receipt = prng.one_of(&[127, 128, 129, 255]),
            6 => r.block = vec![7; prng.one_of(&[64, 65, 66, 128, 255])],
            7 => {
                r.flags &= 3;
                r.mask = prng.one_of(&[0, 1, 8]);
            }
            _ => {
                let count = prng.one_of(&[2594, 2595, 2596, 2600, 2633, 2634, 4096, 12000]);
                (r.bit_count, r.bits) = (count, vec![0; (count as usize).div_ceil(8)]);
            }
        },
        Call::Frame(r) => match prng.below(4) {
            0 => r.kind = prng.one_of(&[0, 3, 255]),
            1 => r.block = vec![7; prng.one_of(&[64, 65, 66, 128, 255])],
            _ => {
                let count = prng.one_of(&[2632, 2633, 2634, 2640, 12000]);
                (r.bit_count, r.bits) = (count, vec![0; (count as usize).div_ceil(8)]);
                r.bits[0] = prng.one_of(&[0x00, 0x10, 0x20, 0x30, 0x80]);
            }
        },
        Call::Report { receipt, value } => match prng.below(2) {
            0 => *receipt = prng.one_of(&[127, 128, 129, 255]),
            _ => *value = prng.one_of(&[0, 3, 255]),
        },
        Call::Release { receipt } => *receipt = prng.one_of(&[127, 128, 129, 255]),
    }
    call
}

/// A call's bytes with something wrong about them.
pub fn bytes(call: &Call, prng: &mut Prng) -> Vec<u8> {
    let mut bytes = call.bytes();
    match prng.below(12) {
        0 => {
            bytes.pop();
        }
        1 => bytes.push(prng.next() as u8),
        2 => {
            // One byte more, and the outer length with it.
            bytes.push(0);
            let len = (bytes.len() - 3) as u16;
            bytes[1..3].copy_from_slice(&len.to_be_bytes());
        }
        3 => {
            // One byte less, and the outer length with it.
            if bytes.len() > 3 {
                bytes.pop();
                let len = (bytes.len() - 3) as u16;
                bytes[1..3].copy_from_slice(&len.to_be_bytes());
            }
        }
        4 => bytes[1] ^= 1 << prng.below(8),
        5 => bytes[2] ^= 1 << prng.below(8),
        6 => bytes[0] = prng.one_of(&[0, 0x20, 0x29, 0x2a, 0x2b, 0x2c, 0x7f, 0xff]),
        7 => bytes[0] = 0x20 + prng.below(16) as u8,
        8 => bytes.truncate(prng.below(bytes.len() + 1)),
        9 => {
            // The last bits, which may be spare.
            let last = bytes.len() - 1;
            bytes[last] |= 1 << prng.below(4);
        }
        10 => {
            let at = prng.below(bytes.len());
            bytes[at] = prng.next() as u8;
        }
        _ => {
            let at = prng.below(bytes.len());
            bytes[at] ^= 1 << prng.below(8);
        }
    }
    bytes
}

/// A line that need not be one of digits.
pub fn line(call: &Call, prng: &mut Prng) -> Vec<u8> {
    let mut line = line_of(&call.bytes());
    match prng.below(12) {
        0 => line.clear(),
        1 => {
            line.pop();
        }
        2 => line.push(b'0'),
        3 => {
            let at = prng.below(line.len() + 1);
            line.insert(at, prng.one_of(b" \tgG/:@`x\r-\0\x80\xff"));
        }
        4 => {
            let at = prng.below(line.len());
            line[at] = prng.one_of(b" \tgG/:@`x\r-\0\x80\xff");
        }
        5 => line.make_ascii_uppercase(),
        6 => {
            for character in &mut line {
                if prng.once_in(2) {
                    character.make_ascii_uppercase();
                }
            }
        }
        7 => {
            // Known and unknown tags that fill the line, its limit and what is beyond.
            let count = prng.one_of(&[2047usize, 2048, 2049, 2050, 4096]);
            let mut bytes = vec![0; count];
            bytes[0] = prng.one_of(&[0x24, 0x26, 0x7f]);
            bytes[1..3].copy_from_slice(&((count - 3) as u16).to_be_bytes());
            line = line_of(&bytes);
        }
        8 => line.push(b'\r'),
        9 => {
            let count = prng.below(6);
            line = (0..count).map(|_| prng.one_of(b"0123456789abcdefABCDEF")).collect();
        }
        10 => {
            let count = 2 * prng.below(40);
            line = (0..count).map(|_| prng.one_of(b"0123456789abcdef")).collect();
        }
        _ => {
            let count = prng.below(60);
            line = (0..count).map(|_| prng.next() as u8).filter(|&character| character != b'\n').collect();
        }
    }
    line
}

//! The check sequence: computed and checked.
use crate::caught::caught;
use crate::exports::{leaf_check_fcs, leaf_fcs};
use crate::prng::Prng;
use crate::report::Report;
use tetra_core::BitBuffer;
use tetra_entities::llc::components::fcs::{check_fcs, compute_fcs};

const WANTED: &[(&str, &[&str])] = &[
    ("compute_fcs", &["no bits", "1 to 31 bits", "32 bits and more", "5"]),
    ("check_fcs", &["right", "12", "12, under 32 bits", "5"]),
];

/// Computes on both sides, over so many bits of a part from a place on.
fn compute(part: &[u8], at: usize, len: usize, report: &mut Report) -> u64 {
    let here = unsafe { leaf_fcs(part.as_ptr(), part.len(), at, len) };
    let buffer = BitBuffer::from_bytes(part);
    // "Bits outside the part": the Rust asserts.
    let rust = caught(|| compute_fcs(&buffer, at, at.checked_add(len).unwrap()));
    let answer = match (rust, len) {
        (None, _) => "5",
        (_, 0) => "no bits",
        (_, 1..32) => "1 to 31 bits",
        _ => "32 bits and more",
    };
    let expected = rust.map_or((1 << 32) + 5, u64::from);
    report.compare("compute_fcs", answer, || format!("{len} bits from {at} of {part:02x?}"), &here, &expected);
    expected
}

/// Checks on both sides: the Rust from its position to its end.
fn check(part: &[u8], at: usize, len: usize, report: &mut Report) {
    let here = unsafe { leaf_check_fcs(part.as_ptr(), part.len(), at, len) };
    let rust = caught(|| {
        let mut buffer = BitBuffer::from_bytes(part);
        buffer.set_raw_end(at.checked_add(len).unwrap());
        buffer.set_raw_pos(at);
        // A start between the first bit and the position changes nothing.
        buffer.set_raw_start(at / 2);
        check_fcs(&buffer)
    });
    let (answer, expected) = match rust {
        None => ("5", 5),
        Some(true) => ("right", 0),
        Some(false) if len < 32 => ("12, under 32 bits", 12),
        Some(false) => ("12", 12),
    };
    report.compare("check_fcs", answer, || format!("{len} bits from {at} of {part:02x?}"), &here, &expected);
}

/// Every list of up to ten bits at each place of a byte; random ones; check sequences that are right, and one bit off.
pub fn compare(prng: &mut Prng) -> bool {
    let mut report = Report::new("check sequences", WANTED);
    for bits in 0..1024u32 {
        for at in 0..8 {
            let word = bits << (22 - at) | (prng.next() as u32 & ((1 << (22 - at)) - 1));
            for len in 0..=10 {
                compute(&word.to_be_bytes(), at, len, &mut report);
            }
        }
    }
    for _ in 0..20_000 {
        let count = if prng.once_in(50) { prng.below(330) } else { prng.below(20) };
        let mut part: Vec<u8> = (0..count).map(|_| prng.next() as u8).collect();
        let at = if prng.once_in(30) { usize::MAX - prng.below(3) } else { prng.below(8 * count + 2) };
        let len = if prng.once_in(30) { usize::MAX - prng.below(3) } else { prng.below(8 * count + 2) };
        let sum = compute(&part, at, len, &mut report);
        check(&part, at, len, &mut report);
        if sum < 1 << 32 {
            // The sum behind the bits, and then one bit of all turned round.
            part.extend([0; 5]);
            (0..32).for_each(|bit| set(&mut part, at + len + bit, sum >> (31 - bit) & 1 == 1));
            check(&part, at, len + 32, &mut report);
            let turned = at + prng.below(len + 32);
            part[turned / 8] ^= 128 >> (turned % 8);
            check(&part, at, len + 32, &mut report);
        }
    }
    report.finish()
}

/// Sets a bit.
fn set(part: &mut [u8], at: usize, bit: bool) {
    let mask = 128 >> (at % 8);
    part[at / 8] = part[at / 8] & !mask | if bit { mask } else { 0 };
}

//! Times each leaf of the proved library beside the Rust that it was translated from.
#[allow(dead_code, reason = "the comparison of the leaves uses the rest")]
#[path = "../../tests/oracle/src/leaves/exports.rs"]
mod exports;

use exports::{Window, leaf_fcs, leaf_read_bits, leaf_to_bitbuf, leaf_write_bits};
use std::hint::black_box;
use std::time::Instant;
use tetra_core::BitBuffer;
use tetra_entities::llc::components::fcs;
use tetra_pdus::llc::pdus::bl_data;

unsafe extern "C" {
    fn leaf_read(frame: *const u8, frame_len: usize, len: usize) -> u64;
    fn leaf_write(out: *mut u8, out_len: usize, sdu: *const u8, sdu_len: usize, from: usize, len: usize) -> u64;
}

/// Nanoseconds a call, the least of nine rounds.
fn time(mut f: impl FnMut()) -> f64 {
    let rounds = 20_000;
    (0..9)
        .map(|_| {
            let start = Instant::now();
            for _ in 0..rounds {
                f();
            }
            start.elapsed().as_nanos() as f64 / rounds as f64
        })
        .fold(f64::INFINITY, f64::min)
}

fn row(what: &str, ours: f64, rust: f64) {
    println!("| {what} | {ours:.1} | {rust:.1} | {:.2} |", rust / ours);
}

/// Puts the FCS of so many bits from a place on behind them.
fn put_fcs(frame: &mut [u8], at: usize, len: usize) {
    let sum = fcs::compute_fcs(&BitBuffer::from_bytes(frame), at, at + len);
    for i in 0..32 {
        let place = at + len + i;
        let bit = (sum >> (31 - i) & 1) as u8;
        frame[place / 8] = frame[place / 8] & !(0x80 >> (place % 8)) | bit << (7 - place % 8);
    }
}

/// A field of so many bits at an offset, through a window: read, and written.
fn field(num_bits: usize, at: usize) {
    let mut bytes: Vec<u8> = (0..16u32).map(|i| (i * 37 + 11) as u8).collect();
    let (p, count) = (bytes.as_mut_ptr(), bytes.len());
    let w = Window { start: 0, pos: at, end: 8 * count, expands: false };
    let mut buf = BitBuffer::from_bytes(&bytes);
    let value = 0x9e37_79b9_7f4a_7c15 >> (64 - num_bits);

    buf.seek(at);
    let read = unsafe { leaf_read_bits(w, p, count, num_bits) };
    assert_eq!(Some(read.value), buf.read_bits(num_bits));
    let ours = time(|| {
        black_box(unsafe { leaf_read_bits(black_box(w), p, count, black_box(num_bits)) });
    });
    let rust = time(|| {
        buf.seek(black_box(at));
        black_box(buf.read_bits(black_box(num_bits)));
    });
    row(&format!("reading a field of {num_bits} bits at offset {at}"), ours, rust);

    let written = unsafe { leaf_write_bits(w, p, count, value, num_bits) };
    buf.seek(at);
    buf.write_bits(value, num_bits);
    assert_eq!((written.number, written.window.pos), (0, buf.get_pos()));
    assert_eq!(bytes, buf.clone().into_bytes());
    let (p, count) = (bytes.as_mut_ptr(), bytes.len());
    let ours = time(|| {
        black_box(unsafe { leaf_write_bits(black_box(w), p, count, black_box(value), black_box(num_bits)) });
    });
    let rust = time(|| {
        buf.seek(black_box(at));
        buf.write_bits(black_box(value), black_box(num_bits));
    });
    row(&format!("writing a field of {num_bits} bits at offset {at}"), ours, rust);
}

fn main() {
    const BITS: usize = 2595;
    const AT: usize = 5;
    let mut frame: Vec<u8> = (0..336u32).map(|i| (i * 37 + 11) as u8).collect();
    frame[0] = 0b0001_1000 | frame[0] & 7;
    println!("| what | here, ns | Rust, ns | times faster |");
    println!("|---|---|---|---|");

    let mut buf = BitBuffer::from_bytes(&frame);
    bl_data::BlData::from_bitbuf(&mut buf).unwrap();
    assert_eq!(unsafe { leaf_read(frame.as_ptr(), frame.len(), AT + BITS) }, buf.get_pos() as u64);
    let ours = time(|| {
        black_box(unsafe { leaf_read(black_box(frame.as_ptr()), frame.len(), AT + BITS) });
    });
    let rust = time(|| {
        buf.seek(0);
        black_box(buf.peek_bits(4));
        black_box(bl_data::BlData::from_bitbuf(&mut buf).unwrap());
    });
    row("reading a frame without FCS", ours, rust);

    // The same with the FCS flag, and the FCS behind its 2,595 bits; the Rust reads the header, and its link then checks.
    let mut flagged = frame.clone();
    flagged[0] |= 0b0100_0000;
    put_fcs(&mut flagged, AT, BITS);
    let len = AT + BITS + 32;
    let mut buf = BitBuffer::from_bytes(&flagged);
    buf.set_raw_end(len);
    bl_data::BlData::from_bitbuf(&mut buf).unwrap();
    assert!(fcs::check_fcs(&buf));
    assert_eq!(unsafe { leaf_read(flagged.as_ptr(), flagged.len(), len) }, buf.get_pos() as u64);
    let ours = time(|| {
        black_box(unsafe { leaf_read(black_box(flagged.as_ptr()), flagged.len(), len) });
    });
    let rust = time(|| {
        buf.seek(0);
        black_box(buf.peek_bits(4));
        black_box(bl_data::BlData::from_bitbuf(&mut buf).unwrap());
        black_box(fcs::check_fcs(black_box(&buf)));
    });
    row("reading a frame of 2,595 bits and their FCS", ours, rust);

    // A BL-DATA header of five bits, and the SDU behind it.
    let source: Vec<u8> = (0..325u32).map(|i| (i * 91 + 3) as u8).collect();
    let (mut a, mut b) = (vec![0u8; 336], BitBuffer::new(336 * 8));
    let mut src = BitBuffer::from_bytes(&source);
    let pdu = bl_data::BlData { has_fcs: false, ns: 0 };
    let written = unsafe { leaf_write(a.as_mut_ptr(), a.len(), source.as_ptr(), source.len(), 0, BITS) };
    assert_eq!(written, (AT + BITS) as u64);
    pdu.to_bitbuf(&mut b);
    b.copy_bits(&mut src, BITS);
    assert_eq!(a, b.clone().into_bytes());
    let ours = time(|| {
        black_box(unsafe { leaf_write(black_box(a.as_mut_ptr()), a.len(), source.as_ptr(), source.len(), 0, BITS) });
    });
    let rust = time(|| {
        b.seek(0);
        src.seek(0);
        pdu.to_bitbuf(&mut b);
        b.copy_bits(black_box(&mut src), BITS);
    });
    row("writing a header and copying 2,595 bits to offset 5", ours, rust);

    // The same with the FCS flag and the FCS behind the SDU. The Rust's link leaves it out: here it is the Rust's own, over the SDU.
    let pdu = bl_data::BlData { has_fcs: true, ns: 0 };
    let write_here = |a: &mut [u8]| unsafe {
        leaf_to_bitbuf(1, true, false, false, a.as_mut_ptr(), a.len(), source.as_ptr(), source.len(), 0, BITS)
    };
    let write_rust = |b: &mut BitBuffer, src: &mut BitBuffer| {
        b.seek(0);
        src.seek(0);
        pdu.to_bitbuf(b);
        b.copy_bits(src, BITS);
        b.write_bits(fcs::compute_fcs(src, 0, BITS).into(), 32);
    };
    assert_eq!(write_here(&mut a), (AT + BITS + 32) as u64);
    write_rust(&mut b, &mut src);
    assert_eq!(a, b.clone().into_bytes());
    let ours = time(|| {
        black_box(write_here(black_box(&mut a)));
    });
    let rust = time(|| write_rust(&mut b, black_box(&mut src)));
    row("writing a header, 2,595 bits and their FCS", ours, rust);

    let whole = BitBuffer::from_bytes(&frame);
    for (at, len) in [(AT, BITS), (0, 32), (3, 31), (0, 0), (7, 100)] {
        let ours = unsafe { leaf_fcs(frame.as_ptr(), frame.len(), at, len) };
        assert_eq!(ours, fcs::compute_fcs(&whole, at, at + len) as u64);
    }
    let ours = time(|| {
        black_box(unsafe { leaf_fcs(black_box(frame.as_ptr()), frame.len(), AT, BITS) });
    });
    let rust = time(|| {
        black_box(fcs::compute_fcs(black_box(&whole), AT, AT + BITS));
    });
    row("the FCS over 2,595 bits at offset 5", ours, rust);

    // The longest field, which spans nine bytes, one that spans two, and a header's.
    field(64, 5);
    field(12, 6);
    field(4, 0);
}

//! One field at a place of up to 70,000 bytes, and fills and copies: each as a list says that was written from the papers alone
//! (stored.fields), here and in the Rust.
use crate::act::{Act, Came};
use crate::exports::Window;
use crate::report::Report;

const PLACES: &[&str] = &["up to bit 65,535", "nine bytes, up to bit 65,535", "past bit 65,535", "nine bytes, past bit 65,535"];

const WANTED: &[(&str, &[&str])] = &[("read", PLACES), ("write", PLACES), ("fill", PLACES), ("copy", PLACES)];

/// The bytes that are read, written, filled and copied from.
fn lent(count: usize) -> Vec<u8> {
    (0..count).map(|i| (i * 167 + i / 256 * 59 + i / 65_536 * 101 + 13) as u8).collect()
}

/// The bytes that are copied to.
fn copied_to(count: usize) -> Vec<u8> {
    (0..count).map(|i| (i * 29 + i / 256 * 83 + 200) as u8).collect()
}

/// What a line says: the method, the window, the bytes before it, and what has to come.
fn told(line: &str) -> (Act, Window, Vec<u8>, Came) {
    let words: Vec<&str> = line.split(' ').collect();
    let number = |k: usize| words[k].parse::<usize>().expect("a number");
    let count = number(1);
    let window = |pos| Window { start: 0, pos, end: 8 * count, expands: false };
    let (act, at, num_bits, before) = match words[0] {
        "read" => (Act::ReadBits(number(3)), number(2), number(3), lent(count)),
        "write" => (Act::WriteBits(words[4].parse().expect("a value"), number(3)), number(2), number(3), lent(count)),
        "fill" if number(4) == 1 => (Act::WriteOnes(number(3)), number(2), number(3), lent(count)),
        "fill" => (Act::WriteZeroes(number(3)), number(2), number(3), lent(count)),
        "copy" => (Act::CopyBits(window(number(2)), lent(count), number(4)), number(3), number(4), copied_to(count)),
        other => panic!("{other} is no line of stored.fields"),
    };
    let mut came = Came { number: 0, value: None, window: window(at + num_bits), bytes: before.clone(), other: None };
    match &act {
        Act::ReadBits(_) => came.value = Some(words[4].parse().expect("a value")),
        Act::CopyBits(from, src, _) => came.other = Some((window(from.pos + num_bits), src.clone())),
        _ => {}
    }
    if words.len() == 7 {
        let first = number(5);
        for (i, pair) in words[6].as_bytes().chunks(2).enumerate() {
            came.bytes[first + i] = u8::from_str_radix(str::from_utf8(pair).expect("digits"), 16).expect("a byte");
        }
    }
    (act, window(at), before, came)
}

/// The name of where a field lies.
fn place(w: &Window, came: &Came) -> &'static str {
    let is_far = came.window.pos > 65_536;
    let is_nine = w.pos % 8 + (came.window.pos - w.pos) > 64;
    PLACES[2 * is_far as usize + is_nine as usize]
}

/// Each line of the list, here and in the Rust.
pub fn compare() -> bool {
    let mut report = Report::new("fields", WANTED);
    for line in include_str!("../../stored.fields").lines() {
        let (act, w, before, came) = told(line);
        let kind = WANTED.iter().map(|(kind, _)| *kind).find(|kind| line.starts_with(kind)).expect("a kind");
        report.compare(kind, place(&w, &came), || line.to_string(), &act.here(w, &before), &came);
        report.compare(kind, place(&w, &came), || format!("{line}, in the Rust"), &act.rust(w, &before), &Some(came));
    }
    report.finish()
}

//! Windows: every small case, and random ones.
use crate::act::{Act, Difference, is_valid};
use crate::exports::Window;
use crate::prng::Prng;
use crate::report::Report;

const WANTED: &[(&str, &[&str])] = &[
    ("new", &["0", "5, no such window"]),
    ("from_bytes", &["0"]),
    ("new_autoexpand", &["0"]),
    ("get_len", &["0, found", "5, no such window"]),
    ("get_len_remaining", &["0, found", "5, no such window"]),
    ("get_pos", &["0, found", "5, no such window"]),
    ("get_raw_start", &["0, found"]),
    ("get_raw_pos", &["0, found"]),
    ("get_raw_end", &["0, found"]),
    ("seek", &["0", "5", "5, no such window"]),
    ("seek_rel", &["0", "5", "5, no such window"]),
    ("set_raw_start", &["0", "5", "5, no such window"]),
    ("set_raw_pos", &["0", "5", "5, no such window"]),
    ("set_raw_end", &["0", "5", "5, no such window"]),
    ("peek_bits", &["0", "0, found", "5, no such window"]),
    ("peek_bits_startoffset", &["0", "0, found", "5, no such window"]),
    ("peek_bits_posoffset", &["0", "0, found", "5, no such window"]),
    ("read_bits", &["0", "0, found", "5, no such window"]),
    ("read_bit", &["0", "0, found", "5, no such window"]),
    ("write_bits", &["0", "5", "8", "8, the Rust grows", "5, no such window"]),
    ("write_bit", &["0", "5", "8", "8, the Rust grows", "5, no such window"]),
    ("write_zeroes", &["0", "8", "8, the Rust grows", "5, no such window"]),
    ("write_ones", &["0", "8", "8, the Rust grows", "5, no such window"]),
    ("copy_bits", &["0", "5", "8", "8, the Rust grows", "5, no such window"]),
    ("from_bitbuffer_pos", &["0", "8, the Rust's own bytes", "5, no such window"]),
];

/// Compares one method on one window. The window and bytes after it.
fn one(act: &Act, w: Window, bytes: &[u8], report: &mut Report) -> (Window, Vec<u8>) {
    let here = act.here(w, bytes);
    let (number, difference) = act.number(&w, bytes);
    let given = |what: &str| format!("{act:?} on {w:?} over {bytes:02x?}{what}");
    let answer = match (number, &difference, here.value) {
        (0, _, None) => "0",
        (0, _, Some(_)) => "0, found",
        (5, None, _) => "5",
        (5, Some(_), _) => "5, no such window",
        (_, None, _) => "8",
        (_, Some(Difference::Grows), _) => "8, the Rust grows",
        (..) => "8, the Rust's own bytes",
    };
    // A refusal changes nothing.
    let is_changed = here.window != w || here.bytes != bytes || here.value.is_some() || is_other_changed(act, &here.other, &w);
    if number != 0 {
        report.compare(act.name(), answer, || given(""), &(here.number, is_changed), &(number, false));
    }
    // What the Rust does is asked where it has such a window, and not where it would grow without end.
    let is_given = difference != Some(Difference::NoWindow) && (difference != Some(Difference::Grows) || width(act) <= 1024);
    if is_given && (is_valid(&w, bytes) || number == 0) {
        let rust_window = if is_valid(&w, bytes) { w } else { Window::default() };
        let rust = act.rust(rust_window, bytes);
        match (number, difference, rust) {
            (0, _, Some(mut rust)) => {
                if !is_valid(&w, bytes) && rust.value.is_some() {
                    // A place of a window that the Rust does not have is as it was given.
                    rust.value = Some(raw(act, &w));
                    rust.window = w;
                }
                report.compare(act.name(), answer, || given(""), &here, &rust);
            }
            (_, Some(Difference::Grows), Some(rust)) => {
                let is_beyond = rust.window.end > 8 * bytes.len() && rust.bytes.len() > bytes.len();
                report.compare(act.name(), answer, || given(", and the Rust does not grow"), &is_beyond, &true);
            }
            (_, Some(Difference::OwnBytes), rust) => {
                report.compare(act.name(), answer, || given(", and the Rust refuses"), &rust.is_some(), &true);
            }
            (_, _, rust) => {
                let what = if number == 0 { ", and the Rust panics" } else { ", and the Rust does not panic" };
                report.compare(act.name(), answer, || given(what), &rust.is_none(), &(number != 0));
            }
        }
    }
    (here.window, here.bytes)
}

/// Did a refusal change the other window or bytes?
fn is_other_changed(act: &Act, other: &Option<(Window, Vec<u8>)>, w: &Window) -> bool {
    match (act, other) {
        (Act::CopyBits(v, src, _), Some((window, bytes))) => window != v || bytes != src,
        (Act::FromBitbufferPos(out), Some((window, bytes))) => window != w || bytes != out,
        _ => false,
    }
}

/// The bound that a method asks for.
fn raw(act: &Act, w: &Window) -> u64 {
    (match act {
        Act::GetRawStart => w.start,
        Act::GetRawPos => w.pos,
        _ => w.end,
    }) as u64
}

/// How many bits a method writes.
fn width(act: &Act) -> usize {
    match act {
        Act::WriteBits(_, n) | Act::WriteZeroes(n) | Act::WriteOnes(n) | Act::CopyBits(_, _, n) => *n,
        _ => 1,
    }
}

/// Every method with what a window over `count` bytes can tell apart.
fn acts(count: usize, prng: &mut Prng) -> Vec<Act> {
    let mut acts = vec![
        Act::FromBytes,
        Act::NewAutoexpand,
        Act::GetLen,
        Act::GetLenRemaining,
        Act::GetPos,
        Act::GetRawStart,
        Act::GetRawPos,
        Act::GetRawEnd,
        Act::ReadBit,
        Act::WriteBit(0),
        Act::WriteBit(1),
        Act::WriteBit(2),
        Act::WriteBits(1, 0),
        Act::SeekRel(isize::MIN),
        Act::SeekRel(isize::MAX),
    ];
    let far = (0..=8 * count + 1).chain([usize::MAX]);
    for n in far {
        acts.extend([Act::New(n), Act::Seek(n), Act::SetRawStart(n), Act::SetRawPos(n), Act::SetRawEnd(n)]);
        acts.extend([Act::SeekRel(n as isize), Act::SeekRel((n as isize).wrapping_neg())]);
        for width in [0, 1, 8] {
            acts.extend([Act::PeekBitsStartoffset(n, width), Act::PeekBitsPosoffset(n as isize, width)]);
            acts.push(Act::PeekBitsPosoffset((n as isize).wrapping_neg(), width));
        }
    }
    for n in 0..=66 {
        let value = if n < 64 { prng.next() & ((1 << n) - 1) } else { prng.next() };
        let offset = prng.below(8 * count + 2);
        acts.extend([Act::PeekBits(n), Act::ReadBits(n), Act::WriteBits(value, n), Act::WriteZeroes(n), Act::WriteOnes(n)]);
        acts.extend([Act::PeekBitsStartoffset(offset, n), Act::PeekBitsPosoffset(offset as isize - 4 * count as isize, n)]);
        acts.extend([copy(n, prng), Act::WriteBits(1 << (n % 64), n)]);
    }
    for k in 0..=count {
        acts.push(Act::FromBitbufferPos(bytes(k, prng)));
    }
    acts
}

/// So many random bytes.
fn bytes(count: usize, prng: &mut Prng) -> Vec<u8> {
    (0..count).map(|_| prng.next() as u8).collect()
}

/// A window over so many bytes: in order and inside, but once in a while.
fn window(count: usize, prng: &mut Prng) -> Window {
    let mut bounds: Vec<usize> = (0..3).map(|_| prng.below(8 * count + 1)).collect();
    if !prng.once_in(16) {
        bounds.sort();
    }
    let end = if prng.once_in(40) { bounds[2] + 8 * count } else { bounds[2] };
    Window { start: bounds[0], pos: bounds[1], end, expands: prng.once_in(2) }
}

/// A copy of so many bits, out of as many or one fewer or more.
fn copy(n: usize, prng: &mut Prng) -> Act {
    let count = (n + 7) / 8 + prng.below(2);
    let mut v = window(count, prng);
    if is_valid(&v, &vec![0; count]) && prng.once_in(2) && 8 * count >= n {
        (v.pos, v.end) = (8 * count - n, 8 * count);
    }
    Act::CopyBits(v, bytes(count, prng), n)
}

/// A method with random arguments, near and far.
fn random(count: usize, prng: &mut Prng) -> Act {
    let far = [0, 1, usize::MAX, usize::MAX - 1, usize::MAX / 2, 1 << 63, 8 * count, 8 * count + 1];
    let place = if prng.once_in(20) { prng.one_of(&far) } else { prng.below(8 * count + 2) };
    let step =
        if prng.once_in(20) { prng.one_of(&far) as isize } else { prng.below(16 * count + 3) as isize - 8 * count as isize };
    let width = if prng.once_in(20) { prng.one_of(&far) } else { prng.below(70) };
    let long = if prng.once_in(20) { prng.one_of(&far) } else { prng.below(8 * count + 70) };
    let value = if width < 64 && !prng.once_in(10) { prng.next() & ((1 << width) - 1) } else { prng.next() };
    match prng.below(27) {
        0 => Act::New(place),
        1 => Act::FromBytes,
        2 => Act::NewAutoexpand,
        3 => Act::GetLen,
        4 => Act::GetLenRemaining,
        5 => Act::GetPos,
        6 => Act::Seek(place),
        7 => Act::SeekRel(step),
        8 => Act::SetRawStart(place),
        9 => Act::SetRawPos(place),
        10 => Act::SetRawEnd(place),
        11 => Act::PeekBits(width),
        12 => Act::PeekBitsStartoffset(place, width),
        13 => Act::PeekBitsPosoffset(step, width),
        14 => Act::ReadBits(width),
        15 => Act::ReadBit,
        16 | 17 | 18 => Act::WriteBits(value, width),
        19 => Act::WriteBit(prng.below(3) as u8),
        20 => Act::WriteZeroes(long),
        21 => Act::WriteOnes(long),
        22 | 23 => copy(prng.below(8 * count + 70), prng),
        24 => Act::FromBitbufferPos(bytes(prng.below(count + 2), prng)),
        25 => Act::GetRawStart,
        _ => Act::GetRawEnd,
    }
}

/// So many methods, each from the window and the bytes that the last one left.
fn run(count: usize, length: usize, prng: &mut Prng, report: &mut Report) {
    let mut state = (window(count, prng), bytes(count, prng));
    for _ in 0..length {
        state = one(&random(count, prng), state.0, &state.1, report);
    }
}

/// Every window over up to three bytes, with bounds up to one past them, and every method; then random runs, and some over so many
/// bytes that places do not fit 16 bits.
pub fn compare(prng: &mut Prng) -> bool {
    let mut report = Report::new("windows", WANTED);
    for count in 0..=3 {
        let lent = bytes(count, prng);
        let acts = acts(count, prng);
        let bounds = 8 * count + 2;
        for number in 0..2 * bounds * bounds * bounds {
            let (start, pos, end) = (number / 2 % bounds, number / 2 / bounds % bounds, number / 2 / bounds / bounds);
            let w = Window { start, pos, end, expands: number % 2 == 1 };
            // Windows that the Rust does not have are all refused alike: some of them are asked.
            if is_valid(&w, &lent) || number % 97 == 0 {
                acts.iter().for_each(|act| drop(one(act, w, &lent, &mut report)));
            }
        }
    }
    for _ in 0..20_000 {
        run(prng.one_of(&[0, 1, 2, 5, 8, 9, 16, 17, 40, 340]), 20, prng, &mut report);
    }
    for _ in 0..100 {
        run(prng.one_of(&[8_192, 8_193, 16_400, 65_536, 70_000]), 20, prng, &mut report);
    }
    report.finish()
}

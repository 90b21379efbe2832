//! Makes a run that differs as small as it gets.
use crate::call::Call;
use crate::hex_line::{bytes_of, line_of};

/// A smaller run that still differs; `differs` says at which call.
pub fn shrink(lines: &[Vec<u8>], differs: impl Fn(&[Vec<u8>]) -> Option<usize>) -> Vec<Vec<u8>> {
    let mut run = lines.to_vec();
    if let Some(at) = differs(&run) {
        run.truncate(at + 1);
    }
    from_last_start(&mut run, &differs);
    loop {
        let before = run.len();
        drop_calls(&mut run, &differs);
        if run.len() == before {
            break;
        }
    }
    simplify(&mut run, &differs);
    run
}

/// Is this line a start?
fn is_start(line: &[u8]) -> bool {
    bytes_of(line).is_some_and(|bytes| matches!(Call::parse(&bytes), Ok(Call::Start { .. })))
}

/// Only what follows a start, the latest that does.
fn from_last_start(run: &mut Vec<Vec<u8>>, differs: &impl Fn(&[Vec<u8>]) -> Option<usize>) {
    for at in (0..run.len()).rev().filter(|&at| is_start(&run[at])).collect::<Vec<_>>() {
        if let Some(last) = differs(&run[at..]) {
            *run = run[at..=at + last].to_vec();
            return;
        }
    }
}

/// Drops stretches of calls, long ones first.
fn drop_calls(run: &mut Vec<Vec<u8>>, differs: &impl Fn(&[Vec<u8>]) -> Option<usize>) {
    let mut size = run.len() / 2;
    while size > 0 {
        let mut at = 0;
        while at < run.len() {
            let mut shorter = run[..at].to_vec();
            shorter.extend_from_slice(&run[(at + size).min(run.len())..]);
            match differs(&shorter) {
                Some(last) => {
                    shorter.truncate(last + 1);
                    *run = shorter;
                }
                None => at += size,
            }
        }
        size /= 2;
    }
}

/// Empties blocks and SDUs and zeroes what is passed on, where it still differs.
fn simplify(run: &mut Vec<Vec<u8>>, differs: &impl Fn(&[Vec<u8>]) -> Option<usize>) {
    for at in 0..run.len() {
        let Some(Ok(call)) = bytes_of(&run[at]).map(|bytes| Call::parse(&bytes)) else {
            continue;
        };
        for plainer in plainer(&call) {
            let mut other = run.clone();
            other[at] = line_of(&plainer.bytes());
            if let Some(last) = differs(&other) {
                other.truncate(last + 1);
                *run = other;
                break;
            }
        }
        if at + 1 >= run.len() {
            break;
        }
    }
}

/// A call without what makes it long: the plainest first.
fn plainer(call: &Call) -> Vec<Call> {
    let mut calls = Vec::new();
    for keeps_bits in [false, true] {
        let mut call = call.clone();
        match &mut call {
            Call::Data(r) | Call::Unitdata(r) => {
                r.block.clear();
                (r.link, r.endpoint, r.handle) = (0, 0, 0);
                if !keeps_bits {
                    (r.bit_count, r.bits) = (0, Vec::new());
                }
            }
            Call::Frame(r) => {
                r.block.clear();
                (r.link, r.endpoint) = (0, 0);
                if !keeps_bits && r.bit_count > 6 && r.bits[0] & 0x40 == 0 {
                    (r.bit_count, r.bits) = (6, vec![r.bits[0] & 0xfc]);
                }
            }
            _ => continue,
        }
        calls.push(call);
    }
    calls
}

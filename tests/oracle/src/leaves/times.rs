//! Slot times: every bound of t, f, m and h with each other, and random ones.
use crate::caught::caught;
use crate::exports::*;
use crate::prng::Prng;
use crate::report::Report;
use tetra_core::TdmaTime;

const WANTED: &[(&str, &[&str])] = &[
    ("default", &["0"]),
    ("is_valid", &["yes", "no"]),
    ("to_int", &["0", "5, a time out of range"]),
    ("from_int", &["0", "below 0", "W and above"]),
    ("add_timeslots", &["0", "0, a sum above i32", "5, a time out of range"]),
    ("diff", &["0", "0, -W/2", "0, W/2 - 1", "5, a time out of range"]),
    ("age", &["0", "0, -W/2", "0, W/2 - 1", "5, a time out of range"]),
    ("forward_to_timeslot", &["0", "5, a time out of range", "5, a slot that is none"]),
];
/// The slots after which the time is the first one again.
const W: i64 = 283_115_520;

/// Document 01's ranges, in code of its own.
fn is_valid(a: Time) -> bool {
    (1..=4).contains(&a.t) && (1..=18).contains(&a.f) && (1..=60).contains(&a.m)
}

/// The functions on one time.
fn one(a: Time, slots: i32, ts: u8, report: &mut Report) {
    let yes = if is_valid(a) { "yes" } else { "no" };
    report.compare("is_valid", yes, || format!("{a:?}"), &leaf_is_valid(a), &a.rust().is_valid());
    if !is_valid(a) {
        // "A time out of range": the Rust computes with it.
        let answer = "5, a time out of range";
        let refused = TimeAnswer { number: 5, time: a };
        report.compare("to_int", answer, || format!("{a:?}"), &leaf_to_int(a), &SlotsAnswer { number: 5, slots: 0 });
        report.compare("add_timeslots", answer, || format!("{a:?} and {slots}"), &leaf_add_timeslots(a, slots), &refused);
        report.compare("forward_to_timeslot", answer, || format!("{a:?} to {ts}"), &leaf_forward_to_timeslot(a, ts), &refused);
        return;
    }
    let int = a.rust().to_int();
    report.compare("to_int", "0", || format!("{a:?}"), &leaf_to_int(a), &SlotsAnswer { number: 0, slots: int });
    let (answer, expected) = match caught(|| a.rust().add_timeslots(slots)) {
        Some(sum) => ("0", sum),
        // "A sum above i32": the Rust panics, here is the sum modulo W.
        None => ("0, a sum above i32", TdmaTime::from_int((int as i64 + slots as i64).rem_euclid(W) as i32)),
    };
    let is_above = int as i64 + slots as i64 > i32::MAX as i64;
    let found = (leaf_add_timeslots(a, slots), is_above);
    let expected = (TimeAnswer { number: 0, time: Time::of(expected) }, answer != "0");
    report.compare("add_timeslots", answer, || format!("{a:?} and {slots}"), &found, &expected);
    let (answer, expected) = match (1..=4).contains(&ts) {
        true => ("0", TimeAnswer { number: 0, time: Time::of(a.rust().forward_to_timeslot(ts)) }),
        // "Forward to a slot that is none": the Rust counts modulo 4, or panics.
        false => ("5, a slot that is none", TimeAnswer { number: 5, time: a }),
    };
    report.compare("forward_to_timeslot", answer, || format!("{a:?} to {ts}"), &leaf_forward_to_timeslot(a, ts), &expected);
}

/// Difference and age of two times.
fn two(a: Time, b: Time, report: &mut Report) {
    let is_in_range = is_valid(a) && is_valid(b);
    let found = [(("diff"), leaf_diff(a, b), a.rust(), b.rust()), (("age"), leaf_age(b, a), a.rust(), b.rust())];
    for (function, here, a, b) in found {
        let rust = if is_in_range { if function == "diff" { a.diff(b) } else { b.age(a) } } else { 0 };
        let answer = match rust as i64 {
            _ if !is_in_range => "5, a time out of range",
            slots if slots == -W / 2 => "0, -W/2",
            slots if slots == W / 2 - 1 => "0, W/2 - 1",
            _ => "0",
        };
        let expected = SlotsAnswer { number: if is_in_range { 0 } else { 5 }, slots: rust };
        report.compare(function, answer, || format!("{a:?} and {b:?}"), &here, &expected);
    }
}

/// The time with so many slots.
fn from(slots: i32, report: &mut Report) {
    let answer = match slots as i64 {
        ..0 => "below 0",
        0..W => "0",
        _ => "W and above",
    };
    let expected = Time::of(TdmaTime::from_int(slots));
    report.compare("from_int", answer, || slots.to_string(), &leaf_from_int(slots), &expected);
}

/// A time in range.
fn random(prng: &mut Prng) -> Time {
    Time::of(TdmaTime::from_int(prng.next() as i32))
}

/// All of it.
pub fn compare(prng: &mut Prng) -> bool {
    let mut report = Report::new("slot times", WANTED);
    report.compare("default", "0", String::new, &leaf_first_time(), &Time::of(TdmaTime::default()));
    let mut bounds = Vec::new();
    for t in [0, 1, 2, 3, 4, 5, 8, 255] {
        for f in [0, 1, 2, 17, 18, 19, 255] {
            for m in [0, 1, 2, 59, 60, 61, 255] {
                bounds.extend([0, 1, 32767, 32768, 65534, 65535].map(|h| Time { t, f, m, h }));
            }
        }
    }
    let around = |slots: i64| (-2..=2).map(move |by| (slots + by).clamp(i32::MIN as i64, i32::MAX as i64) as i32);
    let marks = [0, 4, 72, 4320, W / 2, W, 2 * W, 7 * W, i32::MAX as i64, 1_864_368_128, -72, -4320, -W / 2, -W, i32::MIN as i64];
    let marks: Vec<i32> = marks.into_iter().flat_map(around).collect();
    marks.iter().for_each(|&slots| from(slots, &mut report));
    for (place, &a) in bounds.iter().enumerate() {
        for ts in 0..=255 {
            one(a, marks[(place + ts as usize) % marks.len()], ts, &mut report);
        }
        bounds.iter().step_by(7).for_each(|&b| two(a, b, &mut report));
        // Half of W apart, and next to it.
        for by in around(W / 2) {
            two(
                Time::of(TdmaTime::from_int(by + (place as i32 % 3))),
                Time::of(TdmaTime::from_int(place as i32 % 3)),
                &mut report,
            );
        }
    }
    for _ in 0..200_000 {
        let (a, b) = (random(prng), random(prng));
        from(prng.next() as i32, &mut report);
        one(a, prng.next() as i32, prng.below(7) as u8, &mut report);
        two(a, b, &mut report);
    }
    report.finish()
}

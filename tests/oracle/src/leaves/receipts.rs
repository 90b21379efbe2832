//! Receipts: every state with every mark.
use crate::caught::caught;
use crate::exports::*;
use crate::report::Report;
use tetra_core::{TxReporter, TxState};

const WANTED: &[(&str, &[&str])] = &[
    ("mark_transmitted", &["0", "15", "15, a state without a way to it"]),
    ("mark_discarded", &["0", "15", "15, a state without a way to it"]),
    ("mark_acknowledged", &["0", "14", "14, a state without a way to it"]),
    ("mark_lost", &["0", "14", "14, a state without a way to it"]),
    ("reset", &["0", "0, a state without a way to it"]),
    ("is_discarded", &["yes", "no"]),
    ("is_transmitted", &["yes", "no"]),
    ("is_acknowledged", &["yes", "no"]),
    ("is_in_final_state", &["yes", "no"]),
];
/// A mark: its name, the leaf, the Rust's method, and the number of a refusal.
type Mark = (&'static str, extern "C" fn(bool, u8) -> ReceiptAnswer, fn(&TxReporter), u8);
/// A question: its name, the leaf, the Rust's method.
type Question = (&'static str, extern "C" fn(bool, u8) -> bool, fn(&TxReporter) -> bool);

/// A reporter in a state, if there is a way to it.
fn reporter(expects_ack: bool, state: u8) -> Option<TxReporter> {
    let reporter = if expects_ack { TxReporter::new() } else { TxReporter::new_unacked() };
    caught(|| match state {
        0 => {}
        1 => reporter.mark_discarded(),
        2 => reporter.mark_transmitted(),
        3 => {
            reporter.mark_transmitted();
            reporter.mark_lost();
        }
        _ => {
            reporter.mark_transmitted();
            reporter.mark_acknowledged();
        }
    })?;
    Some(reporter)
}

/// The number of a state.
fn raw(state: TxState) -> u8 {
    state as u8
}

/// Every receipt with every mark and every question.
pub fn compare() -> bool {
    let mut report = Report::new("receipts", WANTED);
    let marks: [Mark; 5] = [
        ("mark_transmitted", leaf_mark_transmitted, TxReporter::mark_transmitted, 15),
        ("mark_discarded", leaf_mark_discarded, TxReporter::mark_discarded, 15),
        ("mark_acknowledged", leaf_mark_acknowledged, TxReporter::mark_acknowledged, 14),
        ("mark_lost", leaf_mark_lost, TxReporter::mark_lost, 14),
        ("reset", leaf_reset, TxReporter::reset, 0),
    ];
    let questions: [Question; 4] = [
        ("is_discarded", leaf_is_discarded, TxReporter::is_discarded),
        ("is_transmitted", leaf_is_transmitted, TxReporter::is_transmitted),
        ("is_acknowledged", leaf_is_acknowledged, TxReporter::is_acknowledged),
        ("is_in_final_state", leaf_is_in_final_state, TxReporter::is_in_final_state),
    ];
    for (expects_ack, state) in (0..=255).flat_map(|state| [(true, state), (false, state)]) {
        // From 4 on each number is Acknowledged.
        let was = state.min(4);
        let input = || format!("state {state}, acknowledgement expected: {expects_ack}");
        for (name, here, rust, number) in marks {
            let refused = ReceiptAnswer { number, expects_ack, state: was };
            let made = |state| ReceiptAnswer { number: 0, expects_ack, state };
            let (answer, expected) = match reporter(expects_ack, state) {
                // "States without a way to them": no mark but a reset.
                None if number == 0 => ("0, a state without a way to it", made(0)),
                None if number == 14 => ("14, a state without a way to it", refused),
                None => ("15, a state without a way to it", refused),
                // "A mark from a state that does not allow it", "An acknowledgement that is not expected": the Rust panics.
                Some(reporter) => match caught(|| rust(&reporter)) {
                    Some(()) => ("0", made(raw(reporter.get_state()))),
                    None => {
                        (if number == 14 { "14" } else { "15" }, ReceiptAnswer { state: raw(reporter.get_state()), ..refused })
                    }
                },
            };
            report.compare(name, answer, input, &here(expects_ack, state), &expected);
        }
        for (name, here, rust) in questions {
            // A state without a way to it is final, and is what its number says.
            let of_number = [false, name != "is_acknowledged" && name != "is_discarded", name != "is_discarded"];
            let expected = match reporter(expects_ack, state) {
                Some(reporter) => rust(&reporter),
                None => of_number[was as usize - 2],
            };
            let answer = if expected { "yes" } else { "no" };
            report.compare(name, answer, input, &here(expects_ack, state), &expected);
        }
    }
    report.finish()
}

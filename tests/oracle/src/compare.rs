//! What is compared beside the oracle.
use crate::batch::Batch;
use crate::subject::Subject;

/// A call after which a subject and the oracle differ, or at which the Rust departs from document 01.
pub struct Difference {
    /// Which call.
    pub at: usize,
    /// What the oracle says.
    pub expected: String,
    /// What the subject says.
    pub found: String,
}

/// The first difference, if there is one.
pub fn difference(subject: &Subject, batch: &Batch) -> Option<Difference> {
    let found = subject.outcomes(&batch.lines);
    let fault = batch.faults.first();
    for (at, expected) in batch.expected.iter().enumerate() {
        if let Some((_, what)) = fault.filter(|(place, _)| *place == at) {
            return Some(Difference { at, expected: format!("{what}\n"), found: String::new() });
        }
        match found.get(at) {
            Some(found) if found.agrees(expected) => {}
            found => {
                let expected = expected.show(found.is_some_and(|found| found.held.is_some()));
                return Some(Difference { at, expected, found: found.map_or(String::new(), |found| found.show(true)) });
            }
        }
    }
    let more = found.get(batch.lines.len())?;
    Some(Difference { at: batch.lines.len() - 1, expected: "nothing more\n".into(), found: more.show(true) })
}

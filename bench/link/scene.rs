//! What is timed: calls in order from a start on, some of them under the clock.
use oracle::batch::Batch;
use oracle::call::Call;
use oracle::compare::difference;
use oracle::hex_line::line_of;
use oracle::subject::Subject;

/// Calls one after the other, all timed together or none of them.
pub struct Stretch {
    pub is_timed: bool,
    pub calls: Vec<Call>,
}

/// Calls from a start on.
pub struct Scene {
    /// What the time is of.
    pub what: String,
    /// T251.
    pub t251: u16,
    pub stretches: Vec<Stretch>,
    /// In how many parts the time is divided: calls, or slots.
    pub parts: usize,
    /// The number that every timed call gets; the others get 0.
    pub number: u8,
}

impl Scene {
    /// A start with this T251, and nothing that is timed.
    pub fn new(what: impl Into<String>, t251: u16) -> Scene {
        let scene = Scene { what: what.into(), t251, stretches: Vec::new(), parts: 0, number: 0 };
        scene.then([crate::calls::start(t251)])
    }

    /// Calls that are not timed.
    pub fn then(mut self, calls: impl IntoIterator<Item = Call>) -> Scene {
        self.stretches.push(Stretch { is_timed: false, calls: calls.into_iter().collect() });
        self
    }

    /// Calls that are timed, each a part.
    pub fn timed(mut self, calls: impl IntoIterator<Item = Call>) -> Scene {
        let calls: Vec<Call> = calls.into_iter().collect();
        self.parts += calls.len();
        self.stretches.push(Stretch { is_timed: true, calls });
        self
    }

    /// The timed calls are refused with this number.
    pub fn refused(mut self, number: u8) -> Scene {
        self.number = number;
        self
    }

    /// Asserts that both sides give the same, and the numbers that the scene is about. How many records are that?
    pub fn assert_same(&self) -> usize {
        let lines: Vec<_> = self.calls().map(|(_, call)| line_of(&call.bytes())).collect();
        let batch = Batch::of(&lines);
        assert!(batch.faults.is_empty(), "{}: the Rust departs from document 01", self.what);
        if let Some(found) = difference(&Subject::Link, &batch) {
            panic!("{}: call {}: expected {}, found {}", self.what, found.at, found.expected, found.found);
        }
        for ((is_timed, _), outcome) in self.calls().zip(&batch.expected) {
            let first = format!("{}\n", if is_timed { self.number } else { 0 });
            assert!(outcome.text.starts_with(&first), "{}: not {first}", self.what);
        }
        batch.expected.iter().map(|outcome| outcome.text.lines().count() - 1).sum()
    }

    /// All calls, each with whether it is timed.
    fn calls(&self) -> impl Iterator<Item = (bool, &Call)> {
        self.stretches.iter().flat_map(|stretch| stretch.calls.iter().map(|call| (stretch.is_timed, call)))
    }
}

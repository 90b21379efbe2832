//! Lines in order, and the answers that are expected to them, from a new state on.
use crate::four::{Four, Seen};
use crate::generator::Generator;
use crate::held::Held;
use crate::oracle::Oracle;
use crate::outcome::{Outcome, text};
use crate::prng::Prng;

/// Lines, with what is expected of each.
pub struct Batch {
    pub oracle: Oracle,
    pub lines: Vec<Vec<u8>>,
    pub expected: Vec<Outcome>,
    /// Places where the Rust does not do what document 01 or request P4 says of it.
    pub faults: Vec<(usize, String)>,
    four: Four,
}

impl Batch {
    /// No lines yet.
    pub fn new() -> Batch {
        Batch { oracle: Oracle::new(), lines: Vec::new(), expected: Vec::new(), faults: Vec::new(), four: Four::new() }
    }

    /// These lines.
    pub fn of(lines: &[Vec<u8>]) -> Batch {
        let mut batch = Batch::new();
        for line in lines {
            batch.push(line.clone());
        }
        batch
    }

    /// One line more.
    pub fn push(&mut self, line: Vec<u8>) {
        let answer = self.oracle.line(&line);
        let text = text(answer.number, answer.records.iter().map(|record| record.as_slice()));
        self.expected.push(Outcome { text, held: Some(Held::by_oracle(&self.oracle)) });
        let seen = Seen::of(&self.oracle, &line, answer.number, answer.records);
        let broken = self.four.see(&seen, &mut self.oracle.coverage).err();
        self.faults.extend(answer.fault.into_iter().chain(broken).map(|fault| (self.lines.len(), fault)));
        self.lines.push(line);
    }

    /// The runs of a seed, one after the other, until there are `count` lines.
    pub fn random(seed: u64, count: usize) -> Batch {
        let mut batch = Batch::new();
        let mut prng = Prng::new(seed);
        while batch.lines.len() < count {
            let mut run = Generator::new(prng.next(), batch.lines.is_empty());
            while let Some(line) = run.next(&batch.oracle) {
                batch.push(line);
            }
        }
        batch
    }
}

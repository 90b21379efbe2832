//! What is compared with the Rust.
use crate::outcome::Outcome;
use crate::{link, runner};
use std::path::PathBuf;

/// The proved engine in one of two forms.
pub enum Subject {
    /// The program at this path.
    Runner(PathBuf),
    /// The link of bindings/rust, in this process.
    Link,
}

impl Subject {
    /// What a word of the command line names.
    pub fn named(word: &str) -> Subject {
        if word == "link" { Subject::Link } else { Subject::Runner(word.into()) }
    }

    /// Its name.
    pub fn name(&self) -> &'static str {
        match self {
            Subject::Runner(_) => "the runner",
            Subject::Link => "the link",
        }
    }

    /// What it gives for each line, from a new state on.
    pub fn outcomes(&self, lines: &[Vec<u8>]) -> Vec<Outcome> {
        match self {
            Subject::Runner(path) => runner::outcomes(path, lines),
            Subject::Link => link::outcomes(lines),
        }
    }
}

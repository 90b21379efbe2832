//! The runner, as a process: only its answers are seen.
use crate::outcome::Outcome;
use std::io::Write;
use std::path::Path;
use std::process::{Command, Stdio};

/// What it gives for each line.
pub fn outcomes(runner: &Path, lines: &[Vec<u8>]) -> Vec<Outcome> {
    answers_of(&run(runner, lines))
}

/// What the runner prints for lines.
fn run(runner: &Path, lines: &[Vec<u8>]) -> Vec<u8> {
    let mut child = Command::new(runner).stdin(Stdio::piped()).stdout(Stdio::piped()).spawn().expect("the runner starts");
    let mut input = lines.join(&b'\n');
    // A last line without a line end counts, unless it is empty.
    if lines.last().is_some_and(|last| last.len() % 3 != 1) {
        input.push(b'\n');
    }
    let mut stdin = child.stdin.take().unwrap();
    let writer = std::thread::spawn(move || {
        // A runner that ends early is seen by its output.
        let _ = stdin.write_all(&input);
    });
    let output = child.wait_with_output().expect("the runner ends");
    writer.join().unwrap();
    output.stdout
}

/// The answers of an output: each a number, which is a line of at most two characters, and the lines behind it.
fn answers_of(output: &[u8]) -> Vec<Outcome> {
    let mut answers: Vec<Outcome> = Vec::new();
    for line in output.split_inclusive(|&character| character == b'\n') {
        let text = String::from_utf8_lossy(line);
        match answers.last_mut() {
            Some(answer) if line.len() > 3 => answer.text.push_str(&text),
            _ => answers.push(Outcome { text: text.into_owned(), held: None }),
        }
    }
    answers
}

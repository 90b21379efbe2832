//! Runs the link on calls, as the runner does, and prints the run for people: each call in words, its number with its question, its
//! records field by field, whether it is a repeat, and what the link holds then. Standard input has a call a line, in hexadecimal digits.
#![forbid(unsafe_code)]

use crate::answers::Run;
use crate::lines::{Ended, Line};
use std::io::{self, ErrorKind, Read, Write};
use std::process::ExitCode;

mod answers;
mod calls;
mod frames;
mod lines;
mod messages;
mod numbers;
mod pdus;
mod reader;
mod receipts;
mod records;
mod repeats;
mod requests;
mod state;
mod words;

fn main() -> ExitCode {
    match tell(io::stdin().lock(), io::stdout().lock()) {
        Ok(()) => ExitCode::SUCCESS,
        Err(error) => {
            if error.kind() != ErrorKind::BrokenPipe {
                eprintln!("explain: {error}");
            }
            ExitCode::FAILURE
        }
    }
}

/// Tells the lines of an input to its end, each as soon as it has ended, until an answer cannot be written.
fn tell(mut input: impl Read, mut output: impl Write) -> io::Result<()> {
    let mut run = Run::new();
    let mut line = Line::default();
    let mut chunk = [0; 65_536];
    let end = loop {
        match input.read(&mut chunk) {
            Ok(0) => break Ok(()),
            Ok(n) => {
                for &character in &chunk[..n] {
                    if let Some(ended) = line.feed(character) {
                        answer(&mut run, &ended, &mut output)?;
                    }
                }
            }
            Err(error) if error.kind() == ErrorKind::Interrupted => {}
            Err(error) => break Err(error),
        }
    };
    if let Some(ended) = line.end() {
        answer(&mut run, &ended, &mut output)?;
    }
    end
}

/// Writes the answer to a line.
fn answer(run: &mut Run, line: &Ended, output: &mut impl Write) -> io::Result<()> {
    output.write_all(run.answer(line).as_bytes())?;
    output.flush()
}

#[cfg(test)]
mod tests {
    use super::tell;
    use std::io::{self, Read};

    /// An input that comes in chunks of so many bytes.
    struct Chunks<'a>(&'a [u8], usize);

    impl Read for Chunks<'_> {
        fn read(&mut self, room: &mut [u8]) -> io::Result<usize> {
            let n = self.1.min(room.len()).min(self.0.len());
            let (front, rest) = self.0.split_at(n);
            room[..n].copy_from_slice(front);
            self.0 = rest;
            Ok(n)
        }
    }

    fn told(input: &[u8], chunk: usize) -> String {
        let mut output = Vec::new();
        tell(Chunks(input, chunk), &mut output).unwrap();
        String::from_utf8(output).unwrap()
    }

    #[test]
    fn chunks_do_not_matter() {
        let input = b"21000405fa0004\n2200050000010101\r\n\nhello\n230000";
        let whole = told(input, usize::MAX);
        assert_eq!(whole.matches("call ").count(), 3);
        assert_eq!(whole.matches("line without a call").count(), 2);
        for chunk in 1..input.len() {
            assert_eq!(told(input, chunk), whole, "chunks of {chunk}");
        }
        assert_eq!(told(b"", 1), "");
    }

    #[test]
    fn an_answer_that_cannot_be_written_ends_the_run() {
        assert!(tell(&b"230000\n"[..], &mut [0; 9][..]).is_err());
    }
}

//! The answer to a line: the call is made, and told from its bytes, the engine's answer and the state before it alone.
use crate::calls::CallWords;
use crate::lines::Ended;
use crate::numbers::Number;
use crate::records::RecordLines;
use crate::repeats::Repeat;
use crate::state::StateLines;
use crate::words::Hex;
use wipturay::{Link, Records, Refused};

/// A run: the link on which its calls are made.
pub struct Run {
    link: Link,
}

impl Run {
    /// A run with a link that was never started.
    pub fn new() -> Run {
        Run { link: Link::new() }
    }

    /// Makes the call of a line, and tells it.
    pub fn answer(&mut self, line: &Ended) -> String {
        match line {
            Ended::Call(bytes) => self.call(bytes),
            Ended::NoCall => format!("line without a call\n  {}\n", Number(Some(Refused::NO_CALL))),
        }
    }

    /// Makes a call: its bytes, the call in words, the number, the records or why there is none, and what the link holds then.
    fn call(&mut self, bytes: &[u8]) -> String {
        let repeat = Repeat::of(&self.link, bytes);
        let answer = self.link.call(bytes);
        let refused = answer.as_ref().err().copied();
        let records = RecordLines(answer.unwrap_or(Records::new(&[]))).to_string();
        let repeat = repeat
            .filter(|_| refused.is_none())
            .map_or(String::new(), |repeat| repeat.to_string());
        format!(
            "call {}\n  {}\n  {}\n{records}{repeat}{}",
            Hex(bytes),
            CallWords { bytes, refused },
            Number(refused),
            StateLines(&self.link)
        )
    }
}

//! Refusals.
use std::error::Error;
use std::fmt;

/// A call that the engine refused: it fails one of document 01's questions, and changed nothing.
#[derive(Clone, Copy, Debug, PartialEq, Eq)]
pub struct Refused {
    pub(crate) number: u8,
}

impl Refused {
    /// The refusal of what is no call: question 2. A line of text that spells no bytes gets it without the engine.
    pub const NO_CALL: Refused = Refused { number: 2 };

    /// The number of the first question that the call fails.
    pub fn number(self) -> u8 {
        self.number
    }

    /// That question, in document 01's words, as the requests in docs/changes change them.
    pub fn question(self) -> &'static str {
        match self.number {
            1 => {
                "Is the store 32,256 bytes and the output at least 47,040, and every count and value in the state handed in \
                 within its range?"
            }
            2 => "Do the outer length and, for a known tag, the inner ones fill the call, spare bits zero?",
            3 => "Is the tag known?",
            4 => "Started, or is this a start?",
            5 => {
                "Values in range: time, T251 not 0, type, carrier-given, flags under 8, report value, receipt under 128, \
                 mask under 16 and 0 without flag 4, carrier 0 if not given, block, SDU up to 2,595 bits, frame up to 2,633?"
            }
            6 => "Request: is its receipt free?",
            7 => "Acknowledged path, or frame with N(S): has its SSI a row, or is a row free?",
            8 => "Is there a place in its queue?",
            9 => "Frame: four bits?",
            10 => "Frame: type 0 to 7?",
            11 => "Frame: whole header?",
            12 => "Frame: FCS flag 0, or at least 32 bits left and the check right?",
            13 => "With N(S): under 64 acknowledgements due?",
            14 => "If N(R) would finish a message, is its receipt Transmitted?",
            15 => "Report: is the receipt Pending and its message submitted?",
            16 => "Release: is the receipt taken, its message no longer held, and final?",
            _ => "A question that this binding does not know.",
        }
    }
}

impl fmt::Display for Refused {
    fn fmt(&self, f: &mut fmt::Formatter<'_>) -> fmt::Result {
        write!(f, "refused by question {}: {}", self.number, self.question())
    }
}

impl Error for Refused {}

#[cfg(test)]
mod tests {
    use super::Refused;
    use crate::sys::{OUTPUT, STORE};

    #[test]
    fn question_1_names_the_lengths_that_are_lent() {
        let text = Refused { number: 1 }.question().replace(',', "");
        assert!(
            text.contains(&format!("the store {STORE} bytes and the output at least {OUTPUT} ")),
            "{text}"
        );
    }
}

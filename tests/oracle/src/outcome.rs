//! What a call gave: the text of its answer, and what the link holds after it.
use crate::held::Held;
use crate::hex_line::line_of;

/// What a call gave.
#[derive(Clone)]
pub struct Outcome {
    /// What the runner prints: a line for the number, and a line for each record.
    pub text: String,
    /// What is held after it, where that can be seen.
    pub held: Option<Held>,
}

/// The text of a number and of records.
pub fn text<'a>(number: u8, records: impl IntoIterator<Item = &'a [u8]>) -> String {
    let mut text = format!("{number}\n");
    for record in records {
        text.push_str(std::str::from_utf8(&line_of(record)).unwrap());
        text.push('\n');
    }
    text
}

impl Outcome {
    /// Is it the same as another, of which more may be seen?
    pub fn agrees(&self, other: &Outcome) -> bool {
        self.text == other.text && (self.held.is_none() || self.held == other.held)
    }

    /// It in words, with what is held if that is asked for.
    pub fn show(&self, with_held: bool) -> String {
        match &self.held {
            Some(held) if with_held => format!("{}{held}\n", self.text),
            _ => self.text.clone(),
        }
    }
}

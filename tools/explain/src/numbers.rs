//! The number that answers a call, with the text of its question. The texts are the binding's.
use std::fmt::{Display, Formatter, Result};
use wipturay::Refused;

/// The number of a call that was refused, or 0.
pub struct Number(pub Option<Refused>);

impl Display for Number {
    fn fmt(&self, f: &mut Formatter<'_>) -> Result {
        match self.0 {
            None => f.write_str("0: accepted"),
            Some(refused) => write!(f, "{}: refused. {}", refused.number(), refused.question()),
        }
    }
}

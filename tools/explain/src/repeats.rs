//! Repeats in words: of an accepted frame whose N(S) is the last one accepted from its SSI nothing goes up.
use crate::calls::Call;
use crate::words::{Ns, Ssi};
use std::fmt::{Display, Formatter, Result};
use wipturay::Link;

/// A frame whose N(S) the row of its SSI has as the last.
pub struct Repeat {
    ssi: u32,
    ns: bool,
}

impl Repeat {
    /// The repeat that bytes are to a link, if they are one.
    pub fn of(link: &Link, bytes: &[u8]) -> Option<Repeat> {
        let Some(Call::Frame(frame)) = Call::read(bytes) else {
            return None;
        };
        let (ssi, ns) = (frame.ssi(), frame.ns()?);
        let is_last = link.address_rows().any(|row| row.ssi == ssi && row.last_ns == Some(ns));
        is_last.then_some(Repeat { ssi, ns })
    }
}

impl Display for Repeat {
    fn fmt(&self, f: &mut Formatter<'_>) -> Result {
        let (ns, ssi) = (Ns(self.ns), Ssi(self.ssi));
        writeln!(
            f,
            "  repeat: {ns} is the last one accepted from {ssi}; it is acknowledged, and nothing goes up"
        )
    }
}

#[cfg(test)]
mod tests {
    use super::Repeat;
    use crate::calls::Call;
    use crate::lines::{Ended, Line};
    use std::fs;
    use wipturay::Link;

    #[test]
    fn a_repeat_is_told_exactly_where_nothing_goes_up_of_an_accepted_ns() {
        let stored = concat!(env!("CARGO_MANIFEST_DIR"), "/../../tests/oracle/stored.calls");
        let (mut line, mut link, mut repeats, mut up) = (Line::default(), Link::new(), 0, 0);
        for character in fs::read(stored).unwrap() {
            let Some(Ended::Call(bytes)) = line.feed(character) else {
                continue;
            };
            let told = Repeat::of(&link, &bytes).is_some();
            let has_ns = matches!(Call::read(&bytes), Some(Call::Frame(frame)) if frame.ns().is_some());
            if let (Ok(records), true) = (link.call(&bytes), has_ns) {
                assert_eq!(records.count() == 0, told);
                repeats += usize::from(told);
                up += usize::from(!told);
            }
        }
        assert!(repeats > 0 && up > 0);
    }

    #[test]
    fn a_repeat_has_its_number_and_its_address() {
        let repeat = Repeat { ssi: 1001, ns: true };
        assert_eq!(
            repeat.to_string(),
            "  repeat: N(S) 1 is the last one accepted from SSI 1001 (0003e9); it is acknowledged, and nothing goes up\n"
        );
    }
}

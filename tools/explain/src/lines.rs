//! Lines of hexadecimal digits, character by character; what a line spells is what crates/hex_lines defines.

/// The most digits of a call.
const MOST: usize = 4096;

/// A line under way.
#[derive(Default)]
pub struct Line {
    /// The values of its digits so far.
    digits: Vec<u8>,
    /// It spells no call, whatever follows.
    bad: bool,
}

/// What a line spells.
#[derive(Debug, PartialEq)]
pub enum Ended {
    /// The bytes of a call.
    Call(Vec<u8>),
    /// No bytes: another character than a digit, an odd count, or more than 4,096.
    NoCall,
}

impl Line {
    /// One more character: what the line spells, if it ends.
    pub fn feed(&mut self, character: u8) -> Option<Ended> {
        if character == b'\n' {
            return Some(self.finish());
        }
        match char::from(character).to_digit(16) {
            Some(value) if self.digits.len() < MOST => self.digits.push(value as u8),
            _ => self.bad = true,
        }
        None
    }

    /// The end of the input: what the last line spells, if one has begun.
    pub fn end(&mut self) -> Option<Ended> {
        (self.bad || !self.digits.is_empty()).then(|| self.finish())
    }

    /// What the line spells; the next one begins.
    fn finish(&mut self) -> Ended {
        let Line { digits, bad } = std::mem::take(self);
        if bad || digits.len() % 2 == 1 {
            return Ended::NoCall;
        }
        Ended::Call(digits.chunks_exact(2).map(|pair| pair[0] << 4 | pair[1]).collect())
    }
}

#[cfg(test)]
mod tests {
    use super::{Ended, Line};

    /// What the lines of an input spell.
    fn lines(input: &[u8]) -> Vec<Ended> {
        let mut line = Line::default();
        let mut all: Vec<Ended> = input.iter().filter_map(|&character| line.feed(character)).collect();
        all.extend(line.end());
        all
    }

    #[test]
    fn a_line_spells_bytes_or_no_call() {
        assert_eq!(lines(b""), []);
        assert_eq!(lines(b"\n"), [Ended::Call(vec![])]);
        assert_eq!(lines(b"09afAF\n"), [Ended::Call(vec![0x09, 0xaf, 0xaf])]);
        assert_eq!(lines(b"210\n21"), [Ended::NoCall, Ended::Call(vec![0x21])]);
        for bad in ["2g", "21\r", " 21", "/1", ":1", "@1", "G1", "`1", "\u{e9}", "\0"] {
            assert_eq!(lines(bad.as_bytes()), [Ended::NoCall], "{bad}");
        }
    }

    #[test]
    fn a_line_has_at_most_4096_digits() {
        assert_eq!(lines(&[b'0'; 4096]), [Ended::Call(vec![0; 2048])]);
        assert_eq!(lines(&[b'0'; 4097]), [Ended::NoCall]);
        assert_eq!(lines(&[b'0'; 4098]), [Ended::NoCall]);
        assert_eq!(
            lines(&[&[b'0'; 5000][..], b"\n23"].concat()),
            [Ended::NoCall, Ended::Call(vec![0x23])]
        );
    }
}

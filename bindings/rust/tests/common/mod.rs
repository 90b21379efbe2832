//! What several tests need.

/// The bytes that hexadecimal digits spell; spaces are for the reader. Nothing for a text that spells none.
pub fn try_hex(text: &str) -> Option<Vec<u8>> {
    let digits: Option<Vec<u8>> = text
        .chars()
        .filter(|c| *c != ' ')
        .map(|c| Some(c.to_digit(16)? as u8))
        .collect();
    let digits = digits.filter(|digits| digits.len() % 2 == 0)?;
    Some(digits.chunks(2).map(|pair| pair[0] << 4 | pair[1]).collect())
}

/// The bytes that hexadecimal digits spell.
#[allow(dead_code)]
pub fn hex(text: &str) -> Vec<u8> {
    try_hex(text).expect(text)
}

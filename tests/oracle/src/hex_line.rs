//! Lines of hexadecimal digits, as document 01's runner reads and prints them.

/// Bytes as lower-case digits.
pub fn line_of(bytes: &[u8]) -> Vec<u8> {
    const DIGITS: &[u8; 16] = b"0123456789abcdef";
    bytes.iter().flat_map(|&byte| [DIGITS[(byte >> 4) as usize], DIGITS[(byte & 15) as usize]]).collect()
}

/// The bytes that a line spells, if it is one of digits, an even count of them and at most 4,096.
pub fn bytes_of(line: &[u8]) -> Option<Vec<u8>> {
    if line.len() % 2 != 0 || line.len() > 4096 {
        return None;
    }
    line.chunks(2).map(|pair| Some(digit(pair[0])? << 4 | digit(pair[1])?)).collect()
}

/// The value of a digit.
fn digit(character: u8) -> Option<u8> {
    (character as char).to_digit(16).map(|value| value as u8)
}

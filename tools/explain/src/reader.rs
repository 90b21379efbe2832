//! The value of a call, taken off the front of its bytes.
use wipturay::Bits;

/// What is left of a value.
pub struct Reader<'a>(pub &'a [u8]);

impl<'a> Reader<'a> {
    /// The next N bytes.
    fn array<const N: usize>(&mut self) -> Option<[u8; N]> {
        let (front, rest) = self.0.split_first_chunk()?;
        self.0 = rest;
        Some(*front)
    }

    /// The next so many bytes.
    fn bytes(&mut self, len: usize) -> Option<&'a [u8]> {
        let (front, rest) = self.0.split_at_checked(len)?;
        self.0 = rest;
        Some(front)
    }

    /// A number of one byte.
    pub fn one(&mut self) -> Option<u8> {
        self.array().map(|[byte]| byte)
    }

    /// A number of two bytes.
    pub fn two(&mut self) -> Option<u16> {
        self.array().map(u16::from_be_bytes)
    }

    /// A number of three bytes.
    pub fn three(&mut self) -> Option<u32> {
        self.array()
            .map(|[high, middle, low]| u32::from_be_bytes([0, high, middle, low]))
    }

    /// A number of four bytes.
    pub fn four(&mut self) -> Option<u32> {
        self.array().map(u32::from_be_bytes)
    }

    /// A block: its length in one byte, and its bytes.
    pub fn block(&mut self) -> Option<&'a [u8]> {
        let len = self.one()?;
        self.bytes(len.into())
    }

    /// Bits: their count in two bytes, and the bytes that they are packed into.
    pub fn bits(&mut self) -> Option<Bits<'a>> {
        let len = usize::from(self.two()?);
        Bits::new(self.bytes(len.div_ceil(8))?, len).ok()
    }
}

#[cfg(test)]
mod tests {
    use super::Reader;

    #[test]
    fn parts_come_off_the_front() {
        let mut value = Reader(b"\x01\x02\x03\x04\x05\x06\x07\x08\x09\x0a\x02\xaa\xbb\x00\x0c\xab\xc0\x11");
        assert_eq!(value.one(), Some(0x01));
        assert_eq!(value.two(), Some(0x0203));
        assert_eq!(value.three(), Some(0x040506));
        assert_eq!(value.four(), Some(0x0708090a));
        assert_eq!(value.block(), Some(&b"\xaa\xbb"[..]));
        let bits = value.bits().unwrap();
        assert_eq!((bits.len(), bits.bytes()), (12, &b"\xab\xc0"[..]));
        assert_eq!((value.two(), value.block(), value.0), (None, None, &b""[..]));
    }
}

//! Words and numbers that stand in more than one place.
use std::fmt::{Display, Formatter, Result};
use wipturay::{TdmaTime, TetraAddress};

/// An SSI, also as the course writes it: six hexadecimal digits.
pub struct Ssi(pub u32);

impl Display for Ssi {
    fn fmt(&self, f: &mut Formatter<'_>) -> Result {
        write!(f, "SSI {} ({:06x})", self.0, self.0)
    }
}

/// A carrier, also as the course writes it: four hexadecimal digits.
pub struct Carrier(pub u16);

impl Display for Carrier {
    fn fmt(&self, f: &mut Formatter<'_>) -> Result {
        write!(f, "carrier {} ({:04x})", self.0, self.0)
    }
}

/// Whose an address is, by the number of its type.
pub struct Whose(pub u8);

impl Display for Whose {
    fn fmt(&self, f: &mut Formatter<'_>) -> Result {
        match self.0 {
            1 => f.write_str("individual"),
            2 => f.write_str("group"),
            other => write!(f, "of type {other}"),
        }
    }
}

/// An address.
pub struct Address {
    /// Its SSI.
    pub ssi: u32,
    /// The number of its type.
    pub ssi_type: u8,
}

impl From<TetraAddress> for Address {
    fn from(address: TetraAddress) -> Address {
        Address {
            ssi: address.ssi(),
            ssi_type: address.ssi_type() as u8,
        }
    }
}

impl Display for Address {
    fn fmt(&self, f: &mut Formatter<'_>) -> Result {
        write!(f, "{} {}", Ssi(self.ssi), Whose(self.ssi_type))
    }
}

/// Link and endpoint.
pub struct Ids(pub u32, pub u32);

impl Display for Ids {
    fn fmt(&self, f: &mut Formatter<'_>) -> Result {
        write!(f, "link {}, endpoint {}", self.0, self.1)
    }
}

/// Stealing or not.
pub fn stealing(steals: bool) -> &'static str {
    if steals { "stealing" } else { "no stealing" }
}

/// The FCS flag of a PDU or of what goes up.
pub fn fcs_flag(set: bool) -> &'static str {
    if set { "FCS flag" } else { "no FCS flag" }
}

/// A timeslot mask, if there is one.
pub struct Mask(pub Option<u8>);

impl Display for Mask {
    fn fmt(&self, f: &mut Formatter<'_>) -> Result {
        match self.0 {
            Some(mask) => write!(f, "mask {mask}"),
            None => f.write_str("no mask"),
        }
    }
}

/// N(S).
pub struct Ns(pub bool);

impl Display for Ns {
    fn fmt(&self, f: &mut Formatter<'_>) -> Result {
        write!(f, "N(S) {}", u8::from(self.0))
    }
}

/// N(R).
pub struct Nr(pub bool);

impl Display for Nr {
    fn fmt(&self, f: &mut Formatter<'_>) -> Result {
        write!(f, "N(R) {}", u8::from(self.0))
    }
}

/// A slot time.
pub struct Time(pub TdmaTime);

impl Display for Time {
    fn fmt(&self, f: &mut Formatter<'_>) -> Result {
        let TdmaTime { t, f: frame, m, h } = self.0;
        write!(f, "h {h} m {m} f {frame} t {t}")
    }
}

/// Two lower-case digits a byte.
pub struct Hex<'a>(pub &'a [u8]);

impl Display for Hex<'_> {
    fn fmt(&self, f: &mut Formatter<'_>) -> Result {
        self.0.iter().try_for_each(|byte| write!(f, "{byte:02x}"))
    }
}

/// A block: how many bytes, and their digits.
pub struct Block<'a>(pub &'a [u8]);

impl Display for Block<'_> {
    fn fmt(&self, f: &mut Formatter<'_>) -> Result {
        write!(f, "block of {} bytes [{}]", self.0.len(), Hex(self.0))
    }
}

/// Bits: how many, and the digits of the bytes that they are packed into.
pub struct Packed(Vec<bool>);

impl Packed {
    /// These bits.
    pub fn new(bits: impl Iterator<Item = bool>) -> Packed {
        Packed(bits.collect())
    }
}

impl Display for Packed {
    fn fmt(&self, f: &mut Formatter<'_>) -> Result {
        let byte = |bits: &[bool]| {
            bits.iter()
                .zip(0..)
                .fold(0, |byte, (&bit, i)| byte | u8::from(bit) << (7 - i))
        };
        let bytes: Vec<u8> = self.0.chunks(8).map(byte).collect();
        write!(f, "{} bits [{}]", self.0.len(), Hex(&bytes))
    }
}

#[cfg(test)]
mod tests {
    use super::{Address, Block, Carrier, Packed, Ssi, Whose};
    use wipturay::Bits;

    #[test]
    fn addresses_and_carriers_stand_in_hexadecimal_digits_too() {
        assert_eq!(Ssi(1001).to_string(), "SSI 1001 (0003e9)");
        assert_eq!(Ssi(0xffffff).to_string(), "SSI 16777215 (ffffff)");
        assert_eq!(Carrier(1530).to_string(), "carrier 1530 (05fa)");
        assert_eq!(Carrier(0).to_string(), "carrier 0 (0000)");
        assert_eq!(Address { ssi: 91, ssi_type: 2 }.to_string(), "SSI 91 (00005b) group");
        assert_eq!(Whose(1).to_string(), "individual");
        assert_eq!(Whose(0).to_string(), "of type 0");
    }

    #[test]
    fn bytes_and_bits_are_counted_and_spelled() {
        assert_eq!(Block(&[0x0a, 0xbc]).to_string(), "block of 2 bytes [0abc]");
        let bits = Bits::new(&[0b0000_0110, 0b1010_0000], 11).unwrap();
        assert_eq!(Packed::new(bits.iter()).to_string(), "11 bits [06a0]");
        assert_eq!(Packed::new(bits.iter().skip(6)).to_string(), "5 bits [a8]");
        assert_eq!(Packed::new(bits.iter().skip(11)).to_string(), "0 bits []");
        assert_eq!(Packed::new([true; 9].into_iter()).to_string(), "9 bits [ff80]");
    }
}

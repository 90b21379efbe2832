//! PDUs taken apart: a type of four bits, N(R) and N(S) where it has them, the SDU, and its check bits where the FCS flag is set.
use crate::words::{Nr, Ns, Packed, fcs_flag};
use std::fmt::{Display, Formatter, Result};
use wipturay::Bits;

/// How many check bits there are.
const CHECK_BITS: usize = 32;

/// The bits of a frame, to be sent or come in, and what they are read as: with the FCS flag the last 32 are check bits.
pub struct Pdu<'a>(pub Bits<'a>);

impl Display for Pdu<'_> {
    fn fmt(&self, f: &mut Formatter<'_>) -> Result {
        write!(f, "{}: ", Packed::new(self.0.iter()))?;
        let mut bits = self.0.iter();
        let Header { name, fcs, nr, ns } = match take_header(&mut bits) {
            Ok(header) => header,
            Err(why) => return f.write_str(why),
        };
        f.write_str(name)?;
        if let Some(nr) = nr {
            write!(f, ", {}", Nr(nr))?;
        }
        if let Some(ns) = ns {
            write!(f, ", {}", Ns(ns))?;
        }
        write!(f, ", {}", fcs_flag(fcs))?;
        put_behind(f, fcs, &bits.collect::<Vec<_>>())
    }
}

/// The N(S) of a frame, if it has one.
pub fn ns(pdu: Bits<'_>) -> Option<bool> {
    take_header(&mut pdu.iter()).ok()?.ns
}

/// The header of a PDU of the basic link.
struct Header {
    name: &'static str,
    fcs: bool,
    nr: Option<bool>,
    ns: Option<bool>,
}

/// Takes the header off the front of a frame's bits, or tells why they are no PDU.
fn take_header(bits: &mut impl Iterator<Item = bool>) -> std::result::Result<Header, &'static str> {
    let (Some(advanced), Some(fcs), Some(high), Some(low)) = (bits.next(), bits.next(), bits.next(), bits.next()) else {
        return Err("no PDU, under four bits");
    };
    if advanced {
        return Err("no basic link PDU, its type is not 0 to 7");
    }
    let (name, has_nr, has_ns) = match (high, low) {
        (false, false) => ("BL-ADATA", true, true),
        (false, true) => ("BL-DATA", false, true),
        (true, false) => ("BL-UDATA", false, false),
        (true, true) => ("BL-ACK", true, false),
    };
    let mut number = |has: bool| has.then(|| bits.next().ok_or("no PDU, its header is cut")).transpose();
    let (nr, ns) = (number(has_nr)?, number(has_ns)?);
    Ok(Header { name, fcs, nr, ns })
}

/// An SDU.
fn put_sdu(f: &mut Formatter<'_>, sdu: &[bool]) -> Result {
    write!(f, ", SDU of {}", packed(sdu))
}

/// What is behind a header: an SDU, and with the FCS flag its check bits, if there are enough for these.
fn put_behind(f: &mut Formatter<'_>, fcs: bool, behind: &[bool]) -> Result {
    if !fcs {
        return put_sdu(f, behind);
    }
    let Some(len) = behind.len().checked_sub(CHECK_BITS) else {
        return write!(f, ", {}, too few for check bits", packed(behind));
    };
    let (sdu, check) = behind.split_at(len);
    put_sdu(f, sdu)?;
    let check = check.iter().fold(0, |sum: u32, &bit| sum << 1 | u32::from(bit));
    write!(f, ", check bits [{check:08x}]")
}

/// Bits with their count.
fn packed(bits: &[bool]) -> Packed {
    Packed::new(bits.iter().copied())
}

#[cfg(test)]
mod tests {
    use super::Pdu;
    use wipturay::Bits;

    /// Each frame must be told so.
    fn told(cases: &[(&[u8], usize, &str)]) {
        for &(bytes, len, expected) in cases {
            assert_eq!(Pdu(Bits::new(bytes, len).unwrap()).to_string(), expected);
        }
    }

    #[test]
    fn each_pdu_has_its_name_and_its_bits() {
        told(&[
            (
                &[0b0000_1001],
                8,
                "8 bits [09]: BL-ADATA, N(R) 1, N(S) 0, no FCS flag, SDU of 2 bits [40]",
            ),
            (
                &[0b0000_0100],
                6,
                "6 bits [04]: BL-ADATA, N(R) 0, N(S) 1, no FCS flag, SDU of 0 bits []",
            ),
            (&[0b0010_0000], 4, "4 bits [20]: BL-UDATA, no FCS flag, SDU of 0 bits []"),
            (&[0b1111_1111], 8, "8 bits [ff]: no basic link PDU, its type is not 0 to 7"),
            (&[0b0000_0000], 5, "5 bits [00]: no PDU, its header is cut"),
            (&[0b1110_0000], 3, "3 bits [e0]: no PDU, under four bits"),
        ]);
    }

    #[test]
    fn with_the_fcs_flag_it_ends_with_check_bits() {
        told(&[
            (
                &[0b0101_1000],
                5,
                "5 bits [58]: BL-DATA, N(S) 1, FCS flag, 0 bits [], too few for check bits",
            ),
            (
                &[0b0111_0111, 0xff, 0xff, 0xff, 0xf0],
                36,
                "36 bits [77fffffff0]: BL-ACK, N(R) 0, FCS flag, 31 bits [fffffffe], too few for check bits",
            ),
            (
                &[0b0100_1000, 0, 0, 0, 0b1000],
                38,
                "38 bits [4800000008]: BL-ADATA, N(R) 1, N(S) 0, FCS flag, SDU of 0 bits [], check bits [00000002]",
            ),
            (
                &[0b0110_1111, 0xff, 0xff, 0xff, 0xf8],
                37,
                "37 bits [6ffffffff8]: BL-UDATA, FCS flag, SDU of 1 bits [80], check bits [ffffffff]",
            ),
        ]);
    }

    #[test]
    fn without_the_fcs_flag_all_behind_the_header_is_the_sdu() {
        told(&[(
            &[0b0010_1111, 0xff, 0xff, 0xff, 0xf8],
            37,
            "37 bits [2ffffffff8]: BL-UDATA, no FCS flag, SDU of 33 bits [ffffffff80]",
        )]);
    }
}

//! What a fault makes of a frame that goes down: an FCS that is wrong, missing or elsewhere, or one where none is due.
use crate::append::{CHECK_BITS, Down, HEADERS};
use crate::bits::Bits;
use crate::check_sequence::{from_start, over};
use crate::faults::{self, Fault};
use tetra_core::BitBuffer;

/// What may become of an FCS, in each PDU that has one.
pub const WAYS: [&str; 15] = [
    "left out",
    "left out of an empty SDU",
    "left out of a frame over 2,601 bits",
    "31 bits",
    "ones behind an empty SDU",
    "over the header too",
    "over whole bytes",
    "over nothing",
    "start not shifted",
    "not inverted",
    "low bit first",
    "low byte first",
    "before the SDU",
    "behind whole bytes",
    "without the flag",
];
/// What may become of it in a message that is sent again.
pub const AGAIN: [&str; 3] = ["left out of a resend", "twice in a resend", "over SDU and FCS in a resend"];
/// What may come where none is due.
pub const UNDUE: [&str; 3] = ["FCS", "flag", "flag and FCS"];

/// A frame taken apart.
struct Parts {
    header: Bits,
    sdu: Bits,
}

impl Parts {
    /// The parts of a frame with so many check bits.
    fn of(frame: &BitBuffer, kind: u32, check_bits: usize) -> Parts {
        let header = HEADERS[kind as usize];
        let taken = |from: usize, to: usize| {
            let mut bits = Bits::default();
            (from..to).for_each(|at| bits.push(frame.peek_bits_startoffset(at, 1) == Some(1)));
            bits
        };
        Parts { header: taken(0, header), sdu: taken(header, frame.get_len() - check_bits) }
    }

    /// The FCS over the SDU.
    fn fcs(&self) -> u32 {
        over(&self.sdu.bytes(), 0, self.sdu.len())
    }

    /// Header and SDU.
    fn joined(&self) -> Bits {
        let mut bits = self.header.clone();
        bits.extend(&self.sdu);
        bits
    }

    /// Header, SDU and a check sequence.
    fn with(&self, fcs: u32) -> Bits {
        let mut bits = self.joined();
        bits.push_value(fcs, CHECK_BITS);
        bits
    }

    /// The frame that one of the `WAYS` makes.
    fn wrong(&self, way: &str) -> Bits {
        let (fcs, is_empty) = (self.fcs(), self.sdu.len() == 0);
        let bytes = self.sdu.bytes();
        match way {
            "left out" => self.joined(),
            "left out of an empty SDU" if is_empty => self.joined(),
            "left out of a frame over 2,601 bits" if self.with(0).len() > 2601 => self.joined(),
            "31 bits" => {
                let mut bits = self.with(fcs);
                bits.cut(bits.len() - 1);
                bits
            }
            "ones behind an empty SDU" if is_empty => self.with(u32::MAX),
            "over the header too" => {
                let joined = self.joined();
                self.with(over(&joined.bytes(), 0, joined.len()))
            }
            "over whole bytes" => self.with(over(&bytes, 0, 8 * bytes.len())),
            "over nothing" => self.with(0),
            "start not shifted" => self.with(from_start(u32::MAX, &bytes, 0, self.sdu.len())),
            "not inverted" => self.with(!fcs),
            "low bit first" => self.with(fcs.reverse_bits()),
            "low byte first" => self.with(fcs.swap_bytes()),
            "before the SDU" => {
                let mut bits = self.header.clone();
                bits.push_value(fcs, CHECK_BITS);
                bits.extend(&self.sdu);
                bits
            }
            "behind whole bytes" => {
                let mut bits = self.joined();
                bits.push_value(0, 8 * bits.len().div_ceil(8) - bits.len());
                bits.push_value(fcs, CHECK_BITS);
                bits
            }
            "without the flag" => {
                let mut bits = self.with(fcs);
                bits.flip(1);
                bits
            }
            _ => self.with(fcs),
        }
    }

    /// What is sent again in one of the ways of `AGAIN`.
    fn again(&self, way: &str) -> Bits {
        let mut bits = self.with(self.fcs());
        match way {
            "left out of a resend" => bits.cut(bits.len() - CHECK_BITS),
            "twice in a resend" => bits.push_value(self.fcs(), CHECK_BITS),
            _ => {
                // As if what was sent before were the SDU.
                let fcs = over(&bits.bytes(), self.header.len(), bits.len());
                bits = self.with(fcs);
            }
        }
        bits
    }

    /// What one of the ways of `UNDUE` makes of a frame that is due none.
    fn undue(&self, way: &str) -> Bits {
        let mut bits = if way == "flag" { self.joined() } else { self.with(self.fcs()) };
        if way != "FCS" {
            bits.flip(1);
        }
        bits
    }
}

/// Spoils a frame that goes down, if the fault is one of these.
pub fn misappend(known: &Down, frame: &mut BitBuffer) {
    let Some(fault) = faults::put_in() else {
        return;
    };
    let parts = || Parts::of(frame, known.kind, if known.has_fcs { CHECK_BITS } else { 0 });
    let made = match fault {
        Fault::Appended(kind, way) if known.has_fcs && kind == known.kind => parts().wrong(way),
        Fault::AppendedAgain(kind, way) if known.has_fcs && kind == known.kind && known.is_resend => parts().again(way),
        Fault::UdataAppended(tag, steals, way) if known.asked_by == Some(tag) && known.is_udata(steals) => parts().undue(way),
        Fault::ReplyAppended(way) if known.is_reply && known.is_heard_with_fcs => parts().undue(way),
        _ => return,
    };
    let mut spoilt = BitBuffer::from_bytes(&made.bytes());
    spoilt.set_raw_end(made.len());
    *frame = spoilt;
}

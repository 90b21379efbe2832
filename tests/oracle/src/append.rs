//! The Rust's frames that go down, ended: one with the FCS flag gets the FCS of its SDU behind it, by the Rust's own function. The
//! Rust announces it and leaves it out.
use crate::coverage::Coverage;
use crate::header;
use crate::misappend::misappend;
use crate::oracle::Started;
use crate::repeats::Heard;
use tetra_core::BitBuffer;
use tetra_entities::llc::components::fcs::compute_fcs;
use tetra_saps::tma::TmaUnitdataReq;
use tetra_saps::{SapMsg, SapMsgInner};

/// How many bits the headers have, by the two type bits.
pub const HEADERS: [usize; 4] = [6, 5, 4, 5];
/// How many check bits there are.
pub const CHECK_BITS: usize = 32;
/// The longest frame that goes down.
const LONGEST: usize = 2633;

/// What is known of a frame that goes down.
pub struct Down {
    /// The two type bits.
    pub kind: u32,
    /// Has it the FCS flag?
    pub has_fcs: bool,
    /// Is it a reply, which no request asked for?
    pub is_reply: bool,
    /// The tag of its request, if that asked for an FCS.
    pub asked_by: Option<u8>,
    /// Does it steal?
    pub is_stealing: bool,
    /// Is it sent again?
    pub is_resend: bool,
    /// Had the last frame with an N(S) from its SSI an FCS?
    pub is_heard_with_fcs: bool,
}

impl Down {
    /// What is known of it.
    fn of(down: &TmaUnitdataReq, started: &Started) -> Result<Down, String> {
        let front = down.pdu.peek_bits(4).ok_or("a message without a header")? as u32;
        let again = |reporter| started.llc.messages().iter().any(|m| m.retransmit_count > 0 && m.tx_reporter.is_same(reporter));
        let had_fcs = |Heard { frame, .. }: &Heard| {
            header::unchecked(&frame.bits, frame.bit_count.into()).is_ok_and(|header| header.has_fcs)
        };
        Ok(Down {
            kind: front & 3,
            has_fcs: front & 4 != 0,
            is_reply: down.tx_reporter.is_none(),
            asked_by: down.data_category.and_then(|pass_on| pass_on.fcs_asked_by),
            is_stealing: down.stealing_permission,
            is_resend: down.tx_reporter.as_ref().is_some_and(again),
            is_heard_with_fcs: started.repeats.last(down.main_address.ssi).is_some_and(had_fcs),
        })
    }

    /// Is it a BL-UDATA that steals, or one that does not?
    pub fn is_udata(&self, steals: bool) -> bool {
        self.kind == 2 && self.is_stealing == steals
    }
}

/// A message that the Rust gave, with the FCS behind its SDU if it goes down with the FCS flag.
pub fn append(mut message: SapMsg, started: &Started, coverage: &mut Coverage) -> Result<SapMsg, String> {
    let SapMsgInner::TmaUnitdataReq(down) = &mut message.msg else {
        return Ok(message);
    };
    let known = Down::of(down, started)?;
    if known.has_fcs && (known.is_reply || known.kind == 2) {
        return Err("the FCS flag in a reply or in a BL-UDATA".into());
    }
    let sdu = down.pdu.get_len() - HEADERS[known.kind as usize];
    if known.has_fcs {
        put_fcs(&mut down.pdu, sdu);
    }
    count(&known, sdu, down.pdu.get_len(), coverage);
    misappend(&known, &mut down.pdu);
    Ok(message)
}

/// Puts the FCS of an SDU of so many bits behind the frame that ends with it.
fn put_fcs(frame: &mut BitBuffer, sdu: usize) {
    let end = frame.get_len();
    let fcs = compute_fcs(frame, end - sdu, end);
    frame.seek(end);
    frame.write_bits(fcs.into(), CHECK_BITS);
    frame.seek(0);
}

/// Counts what a frame is, with an SDU of so many bits and so many bits of its own.
fn count(known: &Down, sdu: usize, len: usize, coverage: &mut Coverage) {
    if !known.has_fcs {
        match known.asked_by {
            Some(0x24) => coverage.count("FCS asked for in a BL-UDATA"),
            Some(_) => coverage.count("FCS asked for in a unitdata request"),
            None if known.is_reply && known.is_heard_with_fcs => coverage.count("reply to a frame with FCS"),
            None => {}
        }
        return;
    }
    coverage.count(match known.kind {
        0 => "FCS appended to BL-ADATA",
        1 => "FCS appended to BL-DATA",
        _ => "FCS appended to BL-ACK",
    });
    match sdu {
        0 if known.kind == 3 => coverage.count("FCS appended to a BL-ACK without SDU"),
        0 => coverage.count("FCS appended to an empty SDU"),
        1..32 => coverage.count("FCS appended to 1 to 31 bits"),
        32 => coverage.count("FCS appended to 32 bits"),
        2595 => coverage.count("FCS appended to 2,595 bits"),
        _ => {}
    }
    if len == LONGEST {
        coverage.count("frame of 2,633 bits handed down");
    }
    if known.is_resend {
        coverage.count("resent with FCS");
        if sdu == 0 {
            coverage.count("resent with the FCS of an empty SDU");
        }
    }
}

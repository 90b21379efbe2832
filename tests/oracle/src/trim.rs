//! The Rust's indications, trimmed: one with FCS loses its 32 check bits, and one that this empties has no SDU; of a BL-ACK it is
//! dropped. The Rust sends the check bits up.
use crate::coverage::Coverage;
use crate::faults::{self, Fault};
use tetra_core::BitBuffer;
use tetra_saps::{SapMsg, SapMsgInner};

/// How many check bits there are.
const CHECK_BITS: usize = 32;
/// The type of a BL-ACK.
const BL_ACK: u32 = 3;

/// What is left of a message that the Rust gave for a frame of a type; nothing, if it is dropped.
pub fn trim(mut message: SapMsg, kind: u32, coverage: &mut Coverage) -> Result<Option<SapMsg>, String> {
    let (has_fcs, tl_sdu) = match &mut message.msg {
        SapMsgInner::TlaTlDataIndBl(up) => (up.fcs_flag, &mut up.tl_sdu),
        SapMsgInner::TlaTlUnitdataIndBl(up) => (up.fcs_flag, &mut up.tl_sdu),
        _ => return Ok(Some(message)),
    };
    let cut = faults::cut(kind, has_fcs).unwrap_or(if has_fcs { CHECK_BITS } else { 0 });
    if cut == 0 {
        return Ok(Some(message));
    }
    let left = cut_off(tl_sdu, cut)?;
    count(kind, left, coverage);
    if left > 0 {
        return Ok(Some(message));
    }
    if !faults::is(Fault::EmptyField(kind)) {
        *tl_sdu = None;
    }
    let is_dropped = if kind == BL_ACK { !faults::is(Fault::EmptiedKept) } else { faults::is(Fault::EmptiedDropped(kind)) };
    Ok((!is_dropped).then_some(message))
}

/// Cuts bits off the end of an SDU: how many are left.
fn cut_off(tl_sdu: &mut Option<BitBuffer>, cut: usize) -> Result<usize, String> {
    let sdu = tl_sdu.as_mut().ok_or("an indication with FCS and no SDU")?;
    let left = sdu.get_len_remaining().checked_sub(cut).ok_or("an indication with FCS and too few bits for it")?;
    sdu.set_raw_end(sdu.get_raw_end() - cut);
    Ok(left)
}

/// Counts what is left of an SDU.
fn count(kind: u32, left: usize, coverage: &mut Coverage) {
    let [trimmed, emptied] = match kind {
        0 => ["BL-ADATA trimmed", "BL-ADATA emptied"],
        1 => ["BL-DATA trimmed", "BL-DATA emptied"],
        2 => ["BL-UDATA trimmed", "BL-UDATA emptied"],
        _ => ["BL-ACK trimmed", "BL-ACK emptied and dropped"],
    };
    coverage.count(if left > 0 { trimmed } else { emptied });
    match left {
        1 => coverage.count("trimmed to 1 bit"),
        7 => coverage.count("trimmed to 7 bits"),
        8 => coverage.count("trimmed to 8 bits"),
        9 => coverage.count("trimmed to 9 bits"),
        2595 => coverage.count("trimmed to 2,595 bits"),
        _ => {}
    }
}

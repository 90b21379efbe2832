//! The records of a call in words, a line for each.
use crate::pdus::Pdu;
use crate::words::{Block, Carrier, Hex, Ids, Mask, Packed, Ssi, Whose, fcs_flag, stealing};
use std::fmt::{Display, Formatter, Result};
use wipturay::{Bits, Kind, Record, Records};

/// The records of an answer.
pub struct RecordLines<'a>(pub Records<'a>);

impl Display for RecordLines<'_> {
    fn fmt(&self, f: &mut Formatter<'_>) -> Result {
        let mut records = self.0.clone();
        for record in records.by_ref() {
            put_record(f, &record)?;
        }
        match records.as_bytes() {
            [] => Ok(()),
            rest => writeln!(f, "  record that has no words here [{}]", Hex(rest)),
        }
    }
}

/// What a record of a kind is, and how its bits are told: those to be sent are a PDU, those that go up an SDU.
fn kind_words(kind: Kind) -> (&'static str, fn(&mut Formatter<'_>, Bits<'_>) -> Result) {
    match kind {
        Kind::Acknowledged => ("acknowledged message", put_pdu),
        Kind::Reply => ("acknowledgement reply", put_pdu),
        Kind::Unacknowledged => ("unacknowledged message", put_pdu),
        Kind::DataUp => ("data up", put_sdu),
        Kind::UnitdataUp => ("unitdata up", put_sdu),
    }
}

/// The bits of a frame to be sent.
fn put_pdu(f: &mut Formatter<'_>, bits: Bits<'_>) -> Result {
    write!(f, ", {}", Pdu(bits))
}

/// The bits that go up.
fn put_sdu(f: &mut Formatter<'_>, bits: Bits<'_>) -> Result {
    write!(f, ", SDU of {}", Packed::new(bits.iter()))
}

/// A record as a line: the fields that it has, in their order.
fn put_record(f: &mut Formatter<'_>, record: &Record<'_>) -> Result {
    let (name, put_bits) = kind_words(record.kind);
    let (ssi, ssi_type) = (record.main_address.ssi(), record.main_address.ssi_type() as u8);
    write!(
        f,
        "  record: kind {} {name}, {}, {}",
        record.kind as u8,
        Ssi(ssi),
        Whose(ssi_type)
    )?;
    put_some(f, record.carrier_num.map(Carrier))?;
    put_some(f, Some(Ids(record.link_id, record.endpoint_id)))?;
    put_some(f, record.req_handle.map(|handle| format!("handle {handle}")))?;
    put_some(f, record.stealing_permission.map(stealing))?;
    put_some(f, record.mask.map(|mask| Mask(Some(mask))))?;
    put_some(f, record.receipt.map(|receipt| format!("receipt {receipt}")))?;
    put_some(f, record.block.map(Block))?;
    put_some(f, record.fcs_flag.map(fcs_flag))?;
    if let Some(bits) = record.bits {
        put_bits(f, bits)?;
    }
    f.write_str("\n")
}

/// A field that a record may have.
fn put_some(f: &mut Formatter<'_>, field: Option<impl Display>) -> Result {
    field.map_or(Ok(()), |field| write!(f, ", {field}"))
}

#[cfg(test)]
mod tests {
    use super::RecordLines;
    use wipturay::Records;

    #[test]
    fn bytes_that_are_no_record_are_shown() {
        let bytes = b"\x01\x00\x01\x09\x02";
        assert_eq!(
            RecordLines(Records::new(bytes)).to_string(),
            "  record that has no words here [0100010902]\n"
        );
        assert_eq!(RecordLines(Records::new(b"")).to_string(), "");
    }
}

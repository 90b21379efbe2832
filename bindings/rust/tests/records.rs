//! Records are taken apart as document 01 puts them together, and other bytes do no harm.
use common::hex;
use wipturay::{Bits, Kind, Record, Records, SsiType, TetraAddress};

mod common;

const ACKNOWLEDGED: &str = "010001 01 020003 0a0b0c 030001 01 040002 0d0e 050004 0f101112 060004 13141516 070004 1718191a \
                            080001 01 090001 0b 0a0001 1b 0b0003 1c1d1e 0c0004 000b fedc";
const REPLY: &str = "010001 02 020003 ffffff 030001 02 040002 ffff 050004 00000000 060004 00000000 070004 00000000 080001 00 \
                     0c0003 0005 38";
const UNACKNOWLEDGED: &str = "010001 03 020003 000000 030001 01 040002 0000 050004 ffffffff 060004 00000000 070004 00000000 \
                              080001 01 0a0001 7f 0b0000 0c0002 0000";
const DATA_UP: &str = "010001 04 020003 0a0b0c 030001 01 050004 00000001 060004 00000002 0b0000 0d0001 00";
const UNITDATA_UP: &str = "010001 05 020003 0a0b0c 030001 02 050004 00000000 060004 00000002 0b0001 03 0d0001 01 0c0003 0001 80";

fn address(ssi: u32, ssi_type: SsiType) -> TetraAddress {
    TetraAddress::new(ssi, ssi_type).unwrap()
}

#[test]
fn every_field_is_taken_apart() {
    let bytes = hex(&[ACKNOWLEDGED, REPLY, UNACKNOWLEDGED, DATA_UP, UNITDATA_UP].concat());
    let mut records = Records::new(&bytes);
    assert_eq!(records.as_bytes(), bytes);
    let acknowledged = Record {
        kind: Kind::Acknowledged,
        main_address: address(0x0a0b0c, SsiType::Issi),
        carrier_num: Some(0x0d0e),
        link_id: 0x0f101112,
        endpoint_id: 0x13141516,
        req_handle: Some(0x1718191a),
        stealing_permission: Some(true),
        mask: Some(0x0b),
        receipt: Some(0x1b),
        block: Some(&[0x1c, 0x1d, 0x1e]),
        fcs_flag: None,
        bits: Some(Bits::new(&[0xfe, 0xdc], 11).unwrap()),
    };
    assert_eq!(records.next(), Some(acknowledged));
    let reply = Record {
        kind: Kind::Reply,
        main_address: address(0xffffff, SsiType::Gssi),
        carrier_num: Some(0xffff),
        link_id: 0,
        endpoint_id: 0,
        req_handle: Some(0),
        stealing_permission: Some(false),
        mask: None,
        receipt: None,
        block: None,
        fcs_flag: None,
        bits: Some(Bits::new(&[0x38], 5).unwrap()),
    };
    assert_eq!(records.next(), Some(reply));
    let unacknowledged = Record {
        kind: Kind::Unacknowledged,
        main_address: address(0, SsiType::Issi),
        carrier_num: Some(0),
        link_id: 0xffffffff,
        endpoint_id: 0,
        req_handle: Some(0),
        stealing_permission: Some(true),
        mask: None,
        receipt: Some(0x7f),
        block: Some(&[]),
        fcs_flag: None,
        bits: Some(Bits::new(&[], 0).unwrap()),
    };
    assert_eq!(records.next(), Some(unacknowledged));
    let data_up = Record {
        kind: Kind::DataUp,
        main_address: address(0x0a0b0c, SsiType::Issi),
        carrier_num: None,
        link_id: 1,
        endpoint_id: 2,
        req_handle: None,
        stealing_permission: None,
        mask: None,
        receipt: None,
        block: Some(&[]),
        fcs_flag: Some(false),
        bits: None,
    };
    assert_eq!(records.next(), Some(data_up));
    assert_eq!(records.as_bytes(), hex(UNITDATA_UP));
    let unitdata_up = Record {
        kind: Kind::UnitdataUp,
        main_address: address(0x0a0b0c, SsiType::Gssi),
        link_id: 0,
        block: Some(&[3]),
        fcs_flag: Some(true),
        bits: Some(Bits::new(&[0x80], 1).unwrap()),
        ..data_up
    };
    assert_eq!(records.next(), Some(unitdata_up));
    assert_eq!(records.next(), None);
    assert_eq!(records.as_bytes(), []);
}

#[test]
fn bytes_that_are_no_records_give_none() {
    for text in [
        "",
        "01",
        "230000",
        "010001 00",
        "010001 06 020003 0a0b0c 030001 01 050004 00000001 060004 00000002 0b0000 0d0001 00",
        "010001 04 020003 0a0b0c 030001 00 050004 00000001 060004 00000002 0b0000 0d0001 00",
        "010001 04 020003 0a0b0c 030001 03 050004 00000001 060004 00000002 0b0000 0d0001 00",
        "010001 04 020004 0a0b0c0d 030001 01 050004 00000001 060004 00000002 0b0000 0d0001 00",
        "010001 04 020003 0a0b0c 030001 01 050004 00000001 060004 00000002 0b0000 0d0001 00 0c0003 0009 80",
        "010001 04 020003 0a0b0c 030001 01 050004 00000001 060004 00000002 0b0000 0d0001 00 0c0001 00",
    ] {
        let bytes = hex(text);
        let mut records = Records::new(&bytes);
        assert_eq!(records.next(), None, "{text}");
        assert_eq!(records.as_bytes(), bytes, "{text}");
    }
}

/// Goes through all records of any bytes.
fn visit(bytes: &[u8]) {
    for record in Records::new(bytes) {
        assert!(record.bits.is_none_or(|bits| bits.iter().count() == bits.len()));
    }
}

#[test]
fn bytes_changed_or_cut_off_anywhere_do_no_harm() {
    let mut bytes = hex(&[ACKNOWLEDGED, UNITDATA_UP].concat());
    for at in 0..bytes.len() {
        visit(&bytes[..at]);
        let held = bytes[at];
        for value in 0..=255 {
            bytes[at] = value;
            visit(&bytes);
        }
        bytes[at] = held;
    }
}

//! What a link shows of what it holds: every field of messages, acknowledgements due and rows, after calls whose values are all
//! different; and a receipt is final and its message not held exactly where a release is accepted.
use common::{hex, try_hex};
use std::fs;
use wipturay::{AckDue, AcknowledgedMessage, AddressRow, Link, Message, SsiType, TdmaTime, TetraAddress, UnderWay};

mod common;

fn address(ssi: u32, ssi_type: SsiType) -> TetraAddress {
    TetraAddress::new(ssi, ssi_type).unwrap()
}

/// Makes a call that must be accepted.
fn accepted(link: &mut Link, text: &str) {
    assert!(link.call(&hex(text)).is_ok(), "{text}");
}

#[test]
fn a_new_link_holds_nothing() {
    let link = Link::new();
    assert_eq!(link.messages().count(), 0);
    assert_eq!(link.udata_messages().count(), 0);
    assert_eq!(link.acks_due().count(), 0);
    assert_eq!(link.address_rows().count(), 0);
}

#[test]
fn every_field_of_a_message_is_shown() {
    let mut link = Link::new();
    accepted(&mut link, "21 0004 1234 0001");
    accepted(
        &mut link,
        "25 001d 202122 02 01 2324 25262728 292a2b2c 2d2e2f30 05 09 31 02 3233 000b abe0",
    );
    accepted(
        &mut link,
        "25 001a 303132 01 00 0000 35363738 393a3b3c 3d3e3f40 00 00 32 00 0001 80",
    );
    let first = Message {
        main_address: address(0x202122, SsiType::Gssi),
        carrier_num: 0x2324,
        link_id: 0x25262728,
        endpoint_id: 0x292a2b2c,
        req_handle: 0x2d2e2f30,
        stealing_permission: true,
        mask: Some(9),
        receipt: 0x31,
        block: &[0x32, 0x33],
        frame_len: 15,
    };
    let second = Message {
        main_address: address(0x303132, SsiType::Issi),
        carrier_num: 0x1234,
        link_id: 0x35363738,
        endpoint_id: 0x393a3b3c,
        req_handle: 0x3d3e3f40,
        stealing_permission: false,
        mask: None,
        receipt: 0x32,
        block: &[],
        frame_len: 5,
    };
    assert!(link.udata_messages().eq([first, second]));

    // Two acknowledged messages for one address: the first is under way, the second waits.
    accepted(
        &mut link,
        "24 001d 404142 01 01 4344 00000000 494a4b4c 4d4e4f50 04 06 51 03 525354 0003 a0",
    );
    accepted(
        &mut link,
        "24 0019 404142 01 01 4344 00000000 00000000 00000000 00 00 52 00 0000",
    );
    let waits = |message| AcknowledgedMessage {
        message,
        ns: false,
        under_way: None,
    };
    let under_way = |retransmit_count, umac_done| {
        Some(UnderWay {
            retransmit_count,
            umac_done,
        })
    };
    let first = waits(Message {
        main_address: address(0x404142, SsiType::Issi),
        carrier_num: 0x4344,
        link_id: 0,
        endpoint_id: 0x494a4b4c,
        req_handle: 0x4d4e4f50,
        stealing_permission: false,
        mask: Some(6),
        receipt: 0x51,
        block: &[0x52, 0x53, 0x54],
        frame_len: 8,
    });
    let second = AcknowledgedMessage {
        message: Message {
            endpoint_id: 0,
            req_handle: 0,
            mask: None,
            receipt: 0x52,
            block: &[],
            frame_len: 5,
            ..first.message
        },
        ns: true,
        under_way: None,
    };
    assert!(link.messages().eq([first, second]));
    accepted(&mut link, "22 0005 0102 03 04 01");
    accepted(&mut link, "23 0000");
    let sent = AcknowledgedMessage {
        under_way: under_way(0, None),
        ..first
    };
    assert!(link.messages().eq([sent, second]));
    assert_eq!(link.udata_messages().count(), 0);
    accepted(&mut link, "27 0002 51 02");
    accepted(&mut link, "23 0000");
    let noted = AcknowledgedMessage {
        under_way: under_way(
            0,
            Some(TdmaTime {
                t: 1,
                f: 4,
                m: 3,
                h: 0x0102,
            }),
        ),
        ..first
    };
    assert!(link.messages().eq([noted, second]));
    accepted(&mut link, "22 0005 0102 03 04 02");
    accepted(&mut link, "23 0000");
    let again = AcknowledgedMessage {
        under_way: under_way(1, None),
        ..first
    };
    assert!(link.messages().eq([again, second]));
}

#[test]
fn every_field_of_an_acknowledgement_due_is_shown() {
    let mut link = Link::new();
    accepted(&mut link, "21 0004 1234 0004");
    accepted(&mut link, "22 0005 0000 01 01 04");
    accepted(&mut link, "26 0012 0a0b0c 01 0d0e 00000000 00000000 00 0005 18");
    accepted(&mut link, "22 0005 0000 01 02 01");
    accepted(&mut link, "26 0012 1a1b1c 02 1d1e 00000000 00000000 00 0005 10");
    let due = [
        AckDue {
            main_address: address(0x0a0b0c, SsiType::Issi),
            carrier_num: 0x0d0e,
            nr: true,
            ts: 2,
        },
        AckDue {
            main_address: address(0x1a1b1c, SsiType::Gssi),
            carrier_num: 0x1d1e,
            nr: false,
            ts: 3,
        },
    ];
    assert!(link.acks_due().eq(due));
}

#[test]
fn every_field_of_a_row_is_shown() {
    let mut link = Link::new();
    accepted(&mut link, "21 0004 1234 0004");
    let shown = |link: &Link| {
        link.address_rows()
            .map(|row| (row.ssi, row.vs, row.last_ns))
            .collect::<Vec<_>>()
    };

    // A data request makes a row without a last N(S), a frame with N(S) 0 one with it.
    accepted(
        &mut link,
        "24 0019 404142 01 01 4344 00000000 00000000 00000000 00 00 52 00 0000",
    );
    accepted(&mut link, "26 0012 0a0b0c 02 0d0e 00000000 00000000 00 0005 10");
    let row = AddressRow {
        ssi: 0x404142,
        vs: true,
        last_ns: None,
    };
    assert_eq!(link.address_rows().next(), Some(row));
    assert_eq!(shown(&link), [(0x404142, true, None), (0x0a0b0c, false, Some(false))]);

    // Each gets what it has not; BL-UDATA and BL-ACK change no row and make none.
    accepted(
        &mut link,
        "24 0019 0a0b0c 01 01 4344 00000000 00000000 00000000 00 00 53 00 0000",
    );
    accepted(&mut link, "26 0012 404142 01 0d0e 00000000 00000000 00 0006 04");
    accepted(&mut link, "26 0012 0a0b0c 01 0d0e 00000000 00000000 00 0004 20");
    accepted(&mut link, "26 0012 1a1b1c 01 0d0e 00000000 00000000 00 0005 38");
    assert_eq!(shown(&link), [(0x404142, true, Some(true)), (0x0a0b0c, true, Some(false))]);
    assert_eq!(link.link_send_seqs(), 2);

    // A start ends them.
    accepted(&mut link, "21 0004 1234 0004");
    assert_eq!(shown(&link), []);
}

#[test]
fn final_and_not_held_is_what_a_release_asks() {
    let mut released = 0;
    for entry in fs::read_dir(concat!(env!("CARGO_MANIFEST_DIR"), "/../../samples/course")).unwrap() {
        let path = entry.unwrap().path();
        if path.extension() != Some("calls".as_ref()) {
            continue;
        }
        let calls: Vec<Vec<u8>> = fs::read_to_string(&path).unwrap().lines().filter_map(try_hex).collect();
        for end in 0..=calls.len() {
            let mut link = Link::new();
            for call in &calls[..end] {
                let _ = link.call(call);
            }
            for number in 0..128 {
                let held = link.messages().any(|m| m.message.receipt == number)
                    || link.udata_messages().any(|message| message.receipt == number);
                let over = link.receipt(number).is_some_and(|receipt| receipt.is_in_final_state()) && !held;
                assert_eq!(link.release(number).is_ok(), over, "{} {end} {number}", path.display());
                released += usize::from(over);
            }
        }
    }
    assert!(released > 0);
}

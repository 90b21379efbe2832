//! A link in use for long, past the last time that there is, and the stack that its calls take.
use std::thread;
use wipturay::{Bits, Frame, Kind, Link, Report, Request, SsiType, TdmaTime, TetraAddress, TxState};

fn radio(ssi: u32) -> TetraAddress {
    TetraAddress::new(ssi, SsiType::Issi).unwrap()
}

/// The next slot.
fn next(time: TdmaTime) -> TdmaTime {
    let TdmaTime { t, f, m, h } = time;
    match (t, f, m) {
        (4, 18, 60) => TdmaTime {
            t: 1,
            f: 1,
            m: 1,
            h: h.wrapping_add(1),
        },
        (4, 18, _) => TdmaTime { t: 1, f: 1, m: m + 1, h },
        (4, _, _) => TdmaTime { t: 1, f: f + 1, m, h },
        _ => TdmaTime { t: t + 1, f, m, h },
    }
}

#[test]
fn orders_for_long() {
    let mut link = Link::new();
    link.start(0x05fa, 2).unwrap();
    let mut time = TdmaTime {
        h: 65_530,
        m: 60,
        f: 18,
        t: 4,
    };
    let mut ns = [0; 3];
    for order in 0..20_000u32 {
        let to = order as usize % 3;
        let receipt = (order % 128) as u8;
        let sdu = order.to_be_bytes();
        let request = Request {
            req_handle: order,
            ..Request::new(radio(to as u32), receipt, Bits::new(&sdu, 32).unwrap())
        };
        link.data_request(&request).unwrap();

        // BL-DATA, N(S) and the order, as often as nobody acknowledges it.
        let pdu = ((0b00010 | ns[to]) << 59 | u64::from(order) << 27).to_be_bytes();
        let pdu = Bits::new(&pdu, 37).unwrap();
        for _ in 0..1 + order % 4 {
            link.tick_start(time).unwrap();
            let mut records = link.tick_end().unwrap();
            let record = records.next().unwrap();
            assert_eq!(
                (record.kind, record.main_address, record.receipt),
                (Kind::Acknowledged, radio(to as u32), Some(receipt))
            );
            assert_eq!((record.req_handle, record.bits), (Some(order), Some(pdu)));
            assert_eq!(records.next(), None);
            link.report(receipt, Report::Transmitted).unwrap();
            for _ in 0..2 {
                assert_eq!(link.tick_end().unwrap().next(), None);
                time = next(time);
                link.tick_start(time).unwrap();
            }
        }

        let ack = [0b0011_0000 | (ns[to] as u8) << 3];
        link.frame(&Frame::new(radio(to as u32), 0x05fa, Bits::new(&ack, 5).unwrap()))
            .unwrap();
        assert_eq!(link.receipt(receipt).unwrap().state, TxState::Acknowledged);
        link.release(receipt).unwrap();
        ns[to] ^= 1;
    }
    assert_eq!((link.outbound_messages(), link.link_send_seqs()), (0, 3));
    assert!(time.h < 65_530, "past the last time");
}

#[test]
fn full_queues_in_512_kb_of_stack() {
    let fill = || {
        let mut link = Link::new();
        let sdu = Bits::new(&[0xff; 325], 2_595).unwrap();
        link.start(1, 1).unwrap();
        for receipt in 0..64 {
            let request = Request {
                fcs_flag: true,
                ..Request::new(radio(receipt.into()), receipt, sdu)
            };
            link.data_request(&request).unwrap();
        }
        for receipt in 64..96 {
            link.unitdata_request(&Request::new(radio(0), receipt, sdu)).unwrap();
        }
        for ssi in 0..64 {
            link.frame(&Frame::new(radio(ssi), 1, Bits::new(&[0b00010_000], 5).unwrap()))
                .unwrap();
        }
        assert_eq!(
            (
                link.outbound_messages(),
                link.outbound_udata_messages(),
                link.scheduled_out_acks()
            ),
            (64, 32, 64)
        );
        assert_eq!(link.tick_end().unwrap().count(), 64 + 32 + 64);
        for receipt in 0..96 {
            link.report(receipt, Report::Transmitted).unwrap();
        }
        link.tick_end().unwrap();
        for ssi in 0..64 {
            link.frame(&Frame::new(radio(ssi), 1, Bits::new(&[0b00110_000], 5).unwrap()))
                .unwrap();
        }
        for receipt in 0..96 {
            link.release(receipt).unwrap();
        }
    };
    thread::Builder::new()
        .stack_size(512 * 1024)
        .spawn(fill)
        .unwrap()
        .join()
        .unwrap();
}

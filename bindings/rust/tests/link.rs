//! Every method of a link, its refusals, and what it turns away itself.
use std::error::Error;
use wipturay::{
    Bits, Block, DoesNotFit, Frame, Kind, Link, Receipt, Record, Refused, Report, Request, SsiType, TdmaTime, TetraAddress, TxState,
};

const CARRIER: u16 = 0x05fa;
const FIRST: TdmaTime = TdmaTime { h: 0, m: 1, f: 1, t: 1 };

fn radio(ssi: u32) -> TetraAddress {
    TetraAddress::new(ssi, SsiType::Issi).unwrap()
}

fn bits(bytes: &[u8], len: usize) -> Bits<'_> {
    Bits::new(bytes, len).unwrap()
}

/// A link that is started, with T251 four slots.
fn started() -> Link {
    let mut link = Link::new();
    assert_eq!(link.start(CARRIER, 4).unwrap().next(), None);
    link
}

/// Can it go to another thread, and be looked at from there?
fn goes_anywhere<T: Send + Sync + 'static>(value: T) -> T {
    value
}

#[test]
fn a_new_link_is_empty_and_not_started() {
    let link = goes_anywhere(Link::default());
    assert!(!link.is_started());
    assert_eq!((link.main_carrier(), link.t251(), link.time()), (0, 0, FIRST));
    assert_eq!((link.outbound_messages(), link.outbound_udata_messages()), (0, 0));
    assert_eq!((link.scheduled_out_acks(), link.link_send_seqs()), (0, 0));
    assert!((0..=255).all(|number| link.receipt(number).is_none()));
}

#[test]
fn an_order_is_sent_lost_sent_again_and_acknowledged() -> Result<(), Box<dyn Error>> {
    let mut link = started();
    assert!(link.is_started());
    assert_eq!((link.main_carrier(), link.t251(), link.time()), (CARRIER, 4, FIRST));

    let request = Request {
        req_handle: 0x2a,
        ..Request::new(radio(0x3e9), 7, bits(&[0x4d, 0x31], 16))
    };
    assert_eq!(link.data_request(&request)?.next(), None);
    assert_eq!((link.outbound_messages(), link.link_send_seqs()), (1, 1));
    let pending = Receipt {
        state: TxState::Pending,
        expects_ack: true,
    };
    assert_eq!(link.receipt(7), Some(pending));

    let order = Record {
        kind: Kind::Acknowledged,
        main_address: radio(0x3e9),
        carrier_num: Some(CARRIER),
        link_id: 0,
        endpoint_id: 0,
        req_handle: Some(0x2a),
        stealing_permission: Some(false),
        mask: None,
        receipt: Some(7),
        block: Some(&[]),
        fcs_flag: None,
        bits: Some(bits(&[0x12, 0x69, 0x88], 21)),
    };
    assert_eq!(link.tick_end()?.collect::<Vec<_>>(), [order]);
    link.report(7, Report::Transmitted)?;
    assert_eq!(link.receipt(7).unwrap().state, TxState::Transmitted);

    let time = TdmaTime { t: 2, ..FIRST };
    link.tick_start(time)?;
    assert_eq!(link.time(), time);
    assert_eq!(link.tick_end()?.next(), None);
    link.tick_start(TdmaTime { f: 2, ..time })?;
    assert_eq!(link.tick_end()?.collect::<Vec<_>>(), [order]);
    assert_eq!(link.receipt(7), Some(pending));

    link.report(7, Report::Discarded)?;
    assert_eq!(link.receipt(7).unwrap().state, TxState::Discarded);
    assert_eq!(link.release(7).unwrap_err().number(), 16);
    link.tick_start(TdmaTime { f: 3, ..time })?;
    link.tick_end()?;
    link.tick_start(TdmaTime { f: 4, ..time })?;
    assert_eq!(link.tick_end()?.collect::<Vec<_>>(), [order]);
    link.report(7, Report::Transmitted)?;
    link.tick_end()?;

    // BL-ACK with N(R) 0.
    let ack = Frame::new(radio(0x3e9), CARRIER, bits(&[0b00110_000], 5));
    assert_eq!(link.frame(&ack)?.next(), None);
    assert_eq!(link.receipt(7).unwrap().state, TxState::Acknowledged);
    assert_eq!(link.outbound_messages(), 0);
    link.release(7)?;
    assert_eq!(link.receipt(7), None);
    Ok(())
}

#[test]
fn a_message_that_nobody_acknowledges_is_sent_four_times_and_lost() -> Result<(), Box<dyn Error>> {
    let mut link = started();
    link.data_request(&Request::new(radio(1), 0, bits(&[], 0)))?;
    let mut sent = 0;
    for f in 1..=18 {
        link.tick_start(TdmaTime { f, ..FIRST })?;
        let records = link.tick_end()?.count();
        if records > 0 {
            sent += records;
            link.report(0, Report::Transmitted)?;
        }
    }
    assert_eq!(sent, 4);
    assert_eq!(link.receipt(0).unwrap().state, TxState::Lost);
    Ok(link.release(0).map(|_| ())?)
}

#[test]
fn an_unacknowledged_message_carries_everything() -> Result<(), Box<dyn Error>> {
    let mut link = started();
    let block: Vec<u8> = (0..64).collect();
    let request = Request {
        main_address: TetraAddress::new(0xfffffe, SsiType::Gssi)?,
        carrier_num: Some(0x1234),
        link_id: 0x01020304,
        endpoint_id: 0x05060708,
        req_handle: 0x090a0b0c,
        stealing_permission: true,
        fcs_flag: true,
        mask: Some(6),
        receipt: 127,
        block: Block::new(&block)?,
        // Bytes behind the bits are left out, and bits behind them count as zero.
        tl_sdu: bits(&[0xff, 0xff, 0xff], 11),
    };
    link.unitdata_request(&request)?;
    assert_eq!(link.outbound_udata_messages(), 1);
    let receipt = Receipt {
        state: TxState::Pending,
        expects_ack: false,
    };
    assert_eq!(link.receipt(127), Some(receipt));
    let mut records = link.tick_end()?;
    let message = Record {
        kind: Kind::Unacknowledged,
        main_address: request.main_address,
        carrier_num: Some(0x1234),
        link_id: 0x01020304,
        endpoint_id: 0x05060708,
        req_handle: Some(0x090a0b0c),
        stealing_permission: Some(true),
        mask: Some(6),
        receipt: Some(127),
        block: Some(&block),
        fcs_flag: None,
        bits: Some(bits(&[0b0010_1111, 0b1111_1110], 15)),
    };
    assert_eq!(records.next(), Some(message));
    assert_eq!(records.next(), None);
    link.report(127, Report::Transmitted)?;
    link.release(127)?;
    Ok(())
}

#[test]
fn a_frame_goes_up_and_is_acknowledged_by_stealing() -> Result<(), Box<dyn Error>> {
    let mut link = started();
    link.tick_start(TdmaTime {
        h: 65_535,
        m: 60,
        f: 18,
        t: 4,
    })?;
    let frame = Frame {
        link_id: 0x01020304,
        endpoint_id: 0x05060708,
        block: Block::new(&[9, 10])?,
        ..Frame::new(radio(0xabcdef), 3, bits(&[0b00011_101, 0xff], 10))
    };
    let mut records = link.frame(&frame)?;
    let up = Record {
        kind: Kind::DataUp,
        main_address: frame.main_address,
        carrier_num: None,
        link_id: 0x01020304,
        endpoint_id: 0x05060708,
        req_handle: None,
        stealing_permission: None,
        mask: None,
        receipt: None,
        block: Some(&[9, 10]),
        fcs_flag: Some(false),
        bits: Some(bits(&[0b10111_000], 5)),
    };
    assert_eq!(records.next(), Some(up));
    assert_eq!(records.next(), None);
    assert_eq!(link.scheduled_out_acks(), 1);
    let reply = link.tick_end()?.next().unwrap();
    assert_eq!((reply.kind, reply.carrier_num, reply.link_id), (Kind::Reply, Some(3), 2));
    assert_eq!((reply.stealing_permission, reply.mask), (Some(true), Some(2)));
    assert_eq!(reply.bits, Some(bits(&[0b00111_000], 5)));
    Ok(())
}

#[test]
fn check_bits_do_not_go_up() -> Result<(), Box<dyn Error>> {
    let mut link = started();
    // BL-DATA with the FCS flag and N(S) 0: the text M31 and its check bits.
    let pdu: u64 = (0b01010 << 56 | 0x4d3331 << 32 | 0x5b255b5d) << 3;
    let mut records = link.frame(&Frame::new(radio(1), CARRIER, bits(&pdu.to_be_bytes(), 61)))?;
    let up = records.next().unwrap();
    assert_eq!((up.kind, up.fcs_flag), (Kind::DataUp, Some(true)));
    assert_eq!(up.bits, Some(bits(b"M31", 24)));
    assert_eq!(records.next(), None);

    // N(S) 1, and nothing but its check bits, which are zeros then.
    let up = link
        .frame(&Frame::new(radio(1), CARRIER, bits(&[0b01011_000, 0, 0, 0, 0], 37)))?
        .next()
        .unwrap();
    assert_eq!((up.kind, up.fcs_flag, up.bits), (Kind::DataUp, Some(true), None));

    // BL-ACK with N(R) 0, and nothing but its check bits.
    let ack = Frame::new(radio(1), CARRIER, bits(&[0b01110_000, 0, 0, 0, 0], 37));
    assert_eq!(link.frame(&ack)?.next(), None);
    Ok(())
}

#[test]
fn a_repeat_is_acknowledged_and_does_not_go_up() -> Result<(), Box<dyn Error>> {
    let mut link = started();
    link.data_request(&Request::new(radio(1), 7, bits(&[], 0)))?;
    link.tick_end()?;
    link.report(7, Report::Transmitted)?;
    link.tick_end()?;

    // BL-DATA with N(S) 0 and the text M; then BL-ADATA with N(R) 0 and N(S) 0 on another carrier, which repeats it.
    let data = Frame::new(radio(1), CARRIER, bits(&[0b00010_010, 0b01101_000], 13));
    assert_eq!(link.frame(&data)?.next().unwrap().bits, Some(bits(b"M", 8)));
    let adata = Frame::new(radio(1), CARRIER + 1, bits(&[0b000000_11], 8));
    assert_eq!(link.frame(&adata)?.next(), None);
    assert_eq!((link.scheduled_out_acks(), link.outbound_messages()), (2, 1));

    // Its N(R) is obeyed: on the message's carrier it finishes that.
    let on_carrier = Frame {
        carrier_num: CARRIER,
        ..adata
    };
    assert_eq!(link.frame(&on_carrier)?.next(), None);
    assert_eq!(link.receipt(7).unwrap().state, TxState::Acknowledged);
    let replies: Vec<_> = link
        .tick_end()?
        .map(|reply| (reply.kind, reply.bits.unwrap().bytes()[0]))
        .collect();
    assert_eq!(replies, [(Kind::Reply, 0b00110_000); 3]);

    // Another N(S) goes up, and then the first one again; after a start, too.
    for ns in [1, 0] {
        let next = [0b0001_0000 | ns << 3];
        assert_eq!(link.frame(&Frame::new(radio(1), CARRIER, bits(&next, 5)))?.count(), 1);
    }
    assert_eq!(link.frame(&data)?.next(), None);
    link.start(CARRIER, 4)?;
    assert_eq!(link.frame(&data)?.count(), 1);
    Ok(())
}

/// A call that must be refused.
type Call = fn(&mut Link) -> Result<wipturay::Records<'_>, Refused>;

#[test]
fn each_refusal_carries_its_number() {
    let mut link = Link::new();
    assert_eq!(link.tick_end().unwrap_err().number(), 4);
    let mut link = started();
    let calls: [(u8, Call); 14] = [
        (2, |link| link.call(b"")),
        (3, |link| link.call(&[0x20, 0, 0])),
        (5, |link| link.start(CARRIER, 0)),
        (5, |link| link.tick_start(TdmaTime { t: 5, ..FIRST })),
        (5, |link| link.unitdata_request(&Request::new(radio(1), 128, bits(&[], 0)))),
        // The longest calls that there are.
        (5, |link| {
            link.unitdata_request(&Request {
                block: Block::new(&[0xff; 255]).unwrap(),
                ..Request::new(radio(1), 1, bits(&[0xff; 8192], 65_535))
            })
        }),
        (5, |link| {
            link.frame(&Frame {
                block: Block::new(&[0xff; 255]).unwrap(),
                ..Frame::new(radio(1), CARRIER, bits(&[0xff; 8192], 65_535))
            })
        }),
        (9, |link| link.frame(&Frame::new(radio(1), CARRIER, bits(&[0], 3)))),
        (10, |link| link.frame(&Frame::new(radio(1), CARRIER, bits(&[0x80], 4)))),
        (11, |link| link.frame(&Frame::new(radio(1), CARRIER, bits(&[0x10], 4)))),
        (12, |link| link.frame(&Frame::new(radio(1), CARRIER, bits(&[0x50], 5)))),
        (15, |link| link.report(1, Report::Transmitted)),
        (16, |link| link.release(1)),
        (16, |link| link.release(127)),
    ];
    for (number, call) in calls {
        let refused = call(&mut link).unwrap_err();
        assert_eq!(refused.number(), number);
        assert_eq!(
            refused.to_string(),
            format!("refused by question {number}: {}", refused.question())
        );
    }
    for receipt in 0..64 {
        link.data_request(&Request::new(radio(1), receipt, bits(&[], 0))).unwrap();
    }
    let mut request = Request::new(radio(1), 63, bits(&[], 0));
    assert_eq!(link.data_request(&request).unwrap_err().number(), 6);
    request.receipt = 64;
    assert_eq!(link.data_request(&request).unwrap_err().number(), 8);

    // A refusal changes nothing.
    assert_eq!((link.main_carrier(), link.t251(), link.time()), (CARRIER, 4, FIRST));
    assert_eq!(
        (
            link.outbound_messages(),
            link.outbound_udata_messages(),
            link.scheduled_out_acks()
        ),
        (64, 0, 0)
    );
    assert_eq!(link.receipt(64), None);
}

#[test]
fn a_frame_of_a_257th_address_is_refused() -> Result<(), Box<dyn Error>> {
    let mut link = started();
    let data = |ssi| Frame::new(radio(ssi), CARRIER, bits(&[0b00010_000], 5));
    for ssi in 0..256 {
        assert_eq!(link.frame(&data(ssi))?.count(), 1);
        link.tick_end()?;
    }
    let refused = link.frame(&data(256)).unwrap_err();
    assert_eq!(refused.number(), 7);
    assert!(refused.question().starts_with("Acknowledged path, or frame with N(S):"));
    assert_eq!((link.link_send_seqs(), link.scheduled_out_acks()), (256, 0));

    // BL-UDATA needs no row, and those that have one need no other.
    let udata = Frame::new(radio(256), CARRIER, bits(&[0b0010_0000], 4));
    assert_eq!(link.frame(&udata)?.count(), 1);
    assert_eq!(link.frame(&data(255))?.count(), 0);
    assert_eq!(link.scheduled_out_acks(), 1);
    Ok(())
}

#[test]
fn the_questions_are_document_01s() {
    let mut link = started();
    assert!(
        link.release(3)
            .unwrap_err()
            .question()
            .starts_with("Release: is the receipt taken")
    );
    assert!(
        link.report(3, Report::Discarded)
            .unwrap_err()
            .question()
            .starts_with("Report: is the receipt Pending")
    );
    assert!(
        link.call(&[1, 2, 3])
            .unwrap_err()
            .question()
            .starts_with("Do the outer length")
    );
    assert_eq!(link.call(&[]).unwrap_err(), Refused::NO_CALL);
}

#[test]
fn what_no_call_can_hold_is_turned_away() {
    assert!(TetraAddress::new(0xffffff, SsiType::Issi).is_ok());
    assert_eq!(TetraAddress::new(0x1000000, SsiType::Issi), Err(DoesNotFit::Ssi));
    assert!(Block::new(&[0; 255]).is_ok());
    assert_eq!(Block::new(&[0; 256]), Err(DoesNotFit::Block));
    assert!(Bits::new(&[0; 8192], 65_535).is_ok());
    assert_eq!(Bits::new(&[0; 8192], 65_536), Err(DoesNotFit::Bits));
    assert_eq!(Bits::new(&[0; 2], 17), Err(DoesNotFit::Bytes));
    assert_eq!(Bits::new(&[0; 2], usize::MAX), Err(DoesNotFit::Bytes));
    assert_eq!(DoesNotFit::Bytes.to_string(), "more bits than their bytes have");
}

#[test]
fn bits_are_the_same_whatever_stands_behind_them() {
    assert_eq!(bits(&[0b1010_0000], 3), bits(&[0b1011_1111, 7], 3));
    assert_ne!(bits(&[0b1010_0000], 3), bits(&[0b1010_0000], 4));
    assert_ne!(bits(&[0b1010_0000], 3), bits(&[0b1000_0000], 3));
    assert_eq!(bits(&[0b1010_0000, 0b0100_0000], 10).iter().filter(|bit| *bit).count(), 3);
    assert!(bits(&[1], 0).is_empty() && bits(&[1], 0).bytes().is_empty());
}

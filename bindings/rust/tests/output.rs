//! The memory that a call is lent: with an output of one byte too few, or another store, nothing happens. And the largest tick end,
//! which that output is for.
use common::hex;
use std::mem::MaybeUninit;
use sys::{Answer, OUTPUT, STORE, State, wipturay_call, wipturay_new};
use wipturay::{Bits, Block, Frame, Kind, Link, Records, Report, Request, SsiType, TdmaTime, TetraAddress};

mod common;
#[path = "../src/sys.rs"]
mod sys;

/// State, store and output.
#[derive(Clone, PartialEq)]
struct Lent {
    state: State,
    store: Vec<u8>,
    output: Vec<u8>,
}

impl Lent {
    /// Makes a call: its number, and how many bytes of records it gives.
    fn call(&mut self, bytes: &[u8]) -> (u8, usize) {
        let mut answer = MaybeUninit::<Answer>::uninit();
        // SAFETY: as in src/engine.rs.
        let answer = unsafe {
            wipturay_call(
                answer.as_mut_ptr(),
                self.state,
                self.store.as_mut_ptr(),
                self.store.len(),
                self.output.as_mut_ptr(),
                self.output.len(),
                bytes.as_ptr(),
                bytes.len(),
            );
            answer.assume_init()
        };
        self.state = answer.state;
        (answer.number, answer.len)
    }

    /// The same with other lengths of store and output.
    fn with_lengths(&self, store: usize, output: usize) -> Lent {
        let mut lent = self.clone();
        lent.store.resize(store, 0xa5);
        lent.output.resize(output, 0xa5);
        lent
    }
}

/// Calls at a moment when a frame was heard and a request waits, and the number of each.
const CALLS: [(&str, u8); 10] = [
    ("21 0004 1234 0203", 0),
    ("22 0005 5678 21 11 04", 0),
    ("23 0000", 0),
    (
        "24 001e 606162 01 00 0000 65666768 696a6b6c 6d6e6f70 02 00 33 03 717273 0010 4d31",
        0,
    ),
    ("25 0019 404142 01 00 0000 45464748 494a4b4c 4d4e4f50 04 06 32 00 0000", 0),
    ("26 0013 0a0b0c 01 0d0e 01020304 05060708 01 aa 0005 10", 0),
    ("27 0002 07 01", 15),
    ("28 0001 07", 16),
    ("7f 0000", 3),
    ("", 2),
];

#[test]
fn lent_lengths_that_are_wrong_are_refused_by_1() {
    let mut lent = Lent {
        state: wipturay_new(),
        store: vec![0xa5; STORE],
        output: vec![0xa5; OUTPUT],
    };
    for call in [
        "21 0004 05fa 0004",
        "26 0012 0a0b0c 01 0d0e 00000000 00000000 00 0005 18",
        "24 001b 0003e9 01 00 0000 00000000 00000000 0000002a 02 00 07 00 0010 4d31",
    ] {
        assert_eq!(lent.call(&hex(call)).0, 0, "{call}");
    }
    for (call, number) in CALLS {
        for (store, output) in [
            (STORE, OUTPUT - 1),
            (STORE, 0),
            (STORE - 1, OUTPUT),
            (STORE + 1, OUTPUT),
            (0, OUTPUT),
        ] {
            let before = lent.with_lengths(store, output);
            let mut after = before.clone();
            assert_eq!(after.call(&hex(call)), (1, 0), "{call}, {store} and {output} bytes");
            assert!(after == before, "{call}, {store} and {output} bytes: something changed");
        }
        for output in [OUTPUT, OUTPUT + 1] {
            let before = lent.with_lengths(STORE, output);
            let mut after = before.clone();
            assert_eq!(after.call(&hex(call)).0, number, "{call}, {output} bytes");
            assert_eq!(after == before, number != 0, "{call}, {output} bytes");
        }
    }
}

fn radio(ssi: u32) -> TetraAddress {
    TetraAddress::new(ssi, SsiType::Issi).unwrap()
}

/// What a record takes of each message with a block of 64 bytes, a mask, and a frame of so many bytes.
const fn taken(frame: usize) -> usize {
    4 + 6 + 4 + 5 + 7 + 7 + 7 + 4 + 4 + 4 + (3 + 64) + (3 + 2 + frame)
}

/// A frame of each of these SSIs with this N(S): so many acknowledgements are due.
fn heard(link: &mut Link, ssis: std::ops::Range<u32>, ns: u8) {
    for ssi in ssis {
        let pdu = [0b00010_000 | ns << 3];
        link.frame(&Frame::new(radio(ssi), 1, Bits::new(&pdu, 5).unwrap())).unwrap();
    }
}

#[test]
fn the_largest_tick_end() {
    let sdu: Vec<u8> = (0..325).map(|i| (i * 7 + 3) as u8).collect();
    let sdu = Bits::new(&sdu, 2_595).unwrap();
    let longest = |receipt: u8| Request {
        fcs_flag: true,
        mask: Some(15),
        block: Block::new(&[0x5a; 64]).unwrap(),
        ..Request::new(radio(receipt.into()), receipt, sdu)
    };
    // 32 BL-ACK, each with the N(R) that is due, and 64 replies that steal, since their frames came in slot 4.
    let fill = |link: &mut Link, ns| {
        heard(link, 64..96, ns);
        for receipt in 64..96 {
            let request = Request {
                stealing_permission: true,
                ..longest(receipt)
            };
            link.data_request(&request).unwrap();
        }
        assert_eq!(link.scheduled_out_acks(), 0);
        heard(link, 96..160, ns);
    };
    let (messages, replies, udata) = (64 * taken(330), 64 * 54, 32 * taken(329));
    assert_eq!((messages, udata), (64 * 454, 32 * 453));

    // 64 BL-ADATA, each with the N(R) that is due.
    let mut link = Link::new();
    link.start(1, 1).unwrap();
    let time = TdmaTime { h: 0, m: 1, f: 1, t: 2 };
    link.tick_start(time).unwrap();
    heard(&mut link, 0..64, 1);
    for receipt in 0..64 {
        link.data_request(&longest(receipt)).unwrap();
    }
    assert_eq!(link.scheduled_out_acks(), 0);
    fill(&mut link, 1);
    let first = link.tick_end().unwrap().as_bytes().to_vec();
    assert_eq!(first.len(), messages + replies + udata);
    assert!(first.len() <= OUTPUT);

    // Each message has the longest frame, and a handset gets the SDU out of it.
    let mut handset = Link::new();
    handset.start(1, 1).unwrap();
    let mut kinds = [0; 6];
    for record in Records::new(&first) {
        kinds[record.kind as usize] += 1;
        let pdu = record.bits.unwrap();
        match record.kind {
            Kind::Acknowledged => assert_eq!(pdu.len(), 2_633),
            Kind::Unacknowledged => assert_eq!(pdu.len(), 2_632),
            _ => {
                assert_eq!((pdu.len(), record.mask), (5, Some(8)));
                continue;
            }
        }
        let mut ups = handset.frame(&Frame::new(record.main_address, 1, pdu)).unwrap();
        let up = ups.next().unwrap();
        assert_eq!((up.fcs_flag, up.bits, ups.next()), (Some(true), Some(sdu), None));
    }
    assert_eq!(kinds, [0, 64, 64, 32, 0, 0]);

    // The same once more, by resends: these are the same bytes.
    for receipt in 0..96 {
        link.report(receipt, Report::Transmitted).unwrap();
    }
    for receipt in 64..96 {
        link.release(receipt).unwrap();
    }
    assert_eq!(link.tick_end().unwrap().next(), None);
    link.tick_start(TdmaTime { f: 2, ..time }).unwrap();
    fill(&mut link, 0);
    let again = link.tick_end().unwrap().as_bytes();
    assert_eq!(again.len(), first.len());
    assert!(again[..messages] == first[..messages], "the resends differ");
    assert!(again[messages..] != first[messages..], "N(R) is another now");
}

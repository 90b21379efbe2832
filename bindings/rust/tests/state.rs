//! The compiled archive and src/sys.rs mean the same state: after calls whose values are all different, every field of every
//! struct has the value that it must have.
use common::hex;
use std::array;
use std::mem::MaybeUninit;
use sys::{
    Answer, Entry, FramePlace, LinkSendSeq, OUTPUT, Progress, ReceiptPlace, STORE, ScheduledOutAck, State, TdmaTime,
    TmaUnitdataReq, wipturay_call, wipturay_new,
};
use wipturay as _; // brings the archive

mod common;
#[path = "../src/sys.rs"]
mod sys;

const FIRST: TdmaTime = TdmaTime { t: 1, f: 1, m: 1, h: 0 };

const NO_SENT: TmaUnitdataReq = TmaUnitdataReq {
    ssi: 0,
    ssi_type: 0,
    carrier_num: 0,
    link_id: 0,
    endpoint_id: 0,
    req_handle: 0,
    stealing_permission: false,
    has_mask: false,
    mask: 0,
    receipt: 0,
    block_len: 0,
    block: [0; 64],
};

const NO_PROGRESS: Progress = Progress {
    ns: false,
    submitted_to_umac: false,
    has_umac_done: false,
    t_umac_done: FIRST,
    retransmit_count: 0,
};

const NO_ENTRY: Entry = Entry {
    sent: NO_SENT,
    frame: FramePlace { place: 0, len: 0 },
    progress: NO_PROGRESS,
};

const NO_ACK: ScheduledOutAck = ScheduledOutAck {
    ssi: 0,
    ssi_type: 0,
    carrier_num: 0,
    nr: false,
    ts: 0,
};

const NO_RECEIPT: ReceiptPlace = ReceiptPlace {
    taken: false,
    expects_ack: false,
    state: 0,
};

const NO_ROW: LinkSendSeq = LinkSendSeq {
    ssi: 0,
    vs: false,
    has_last_ns: false,
    last_ns: false,
};

const NEW: State = State {
    started: false,
    main_carrier: 0,
    t251: 0,
    dltime: FIRST,
    n_messages: 0,
    n_udata: 0,
    n_acks: 0,
    n_rows: 0,
    outbound_messages: [NO_ENTRY; 64],
    outbound_udata_messages: [NO_ENTRY; 32],
    scheduled_out_acks: [NO_ACK; 64],
    receipts: [NO_RECEIPT; 128],
    link_send_seq: [NO_ROW; 256],
};

/// What stands in memory before a call.
const GUARD: u8 = 0xa5;

/// Room for an answer, with guard bytes on both sides.
#[repr(C)]
struct Guarded {
    before: [u8; 4096],
    answer: MaybeUninit<Answer>,
    after: [u8; 4096],
}

/// State, store and output of a link whose state is known.
struct Known {
    state: State,
    store: Vec<u8>,
    output: Vec<u8>,
}

impl Known {
    fn new() -> Known {
        Known {
            state: wipturay_new(),
            store: vec![0; STORE],
            output: vec![0; OUTPUT],
        }
    }

    /// Makes a call that must be accepted, with this many bytes of records, and leave this state.
    fn call(&mut self, text: &str, len: usize, expected: &State) {
        let bytes = hex(text);
        let mut room = Guarded {
            before: [GUARD; 4096],
            answer: MaybeUninit::uninit(),
            after: [GUARD; 4096],
        };
        // Safety: as in src/engine.rs; every byte of the answer is written first, so that it shows which are not.
        let answer = unsafe {
            room.answer.as_mut_ptr().write_bytes(GUARD, 1);
            wipturay_call(
                room.answer.as_mut_ptr(),
                self.state,
                self.store.as_mut_ptr(),
                self.store.len(),
                self.output.as_mut_ptr(),
                self.output.len(),
                bytes.as_ptr(),
                bytes.len(),
            );
            room.answer.assume_init()
        };
        assert!(room.before == [GUARD; 4096], "{text}: written before the answer");
        assert!(room.after == [GUARD; 4096], "{text}: written behind the answer");
        assert_eq!((answer.number, answer.len), (0, len), "{text}");
        self.state = answer.state;
        same(&self.state, expected, text);
    }
}

/// Are two states the same? Says the first line in which they differ.
fn same(state: &State, expected: &State, text: &str) {
    if state != expected {
        let (left, right) = (format!("{state:#?}"), format!("{expected:#?}"));
        let differs = left.lines().zip(right.lines()).enumerate().find(|(_, (l, r))| l != r);
        panic!("{text}: {differs:?}");
    }
}

#[test]
fn the_new_state_is_empty() {
    same(&wipturay_new(), &NEW, "new");
}

#[test]
fn every_field_has_its_value() {
    let mut link = Known::new();
    let mut state = NEW;

    // Start.
    state.started = true;
    state.main_carrier = 0x1234;
    state.t251 = 0x0203;
    link.call("21 0004 1234 0203", 0, &state);

    // Tick start.
    state.dltime = TdmaTime {
        t: 4,
        f: 17,
        m: 33,
        h: 0x5678,
    };
    link.call("22 0005 5678 21 11 04", 0, &state);

    // Frames with N(S) 1 and 0: acknowledgements are due, for two slots before, and each SSI has a row.
    state.n_acks = 1;
    state.scheduled_out_acks[0] = ScheduledOutAck {
        ssi: 0x0a0b0c,
        ssi_type: 1,
        carrier_num: 0x0d0e,
        nr: true,
        ts: 2,
    };
    state.n_rows = 1;
    state.link_send_seq[0] = LinkSendSeq {
        ssi: 0x0a0b0c,
        vs: false,
        has_last_ns: true,
        last_ns: true,
    };
    link.call("26 0014 0a0b0c 01 0d0e 01020304 05060708 02 aabb 0005 18", 37, &state);
    state.dltime = TdmaTime {
        t: 1,
        f: 18,
        m: 34,
        h: 0x9abc,
    };
    link.call("22 0005 9abc 22 12 01", 0, &state);
    state.n_acks = 2;
    state.scheduled_out_acks[1] = ScheduledOutAck {
        ssi: 0x1a1b1c,
        ssi_type: 2,
        carrier_num: 0x1d1e,
        nr: false,
        ts: 3,
    };
    state.n_rows = 2;
    state.link_send_seq[1] = LinkSendSeq {
        ssi: 0x1a1b1c,
        vs: false,
        has_last_ns: true,
        last_ns: false,
    };
    link.call("26 0012 1a1b1c 02 1d1e 00000000 00000000 00 0005 10", 35, &state);

    // Unitdata requests: one that steals, with a mask and a whole block, and one with a mask alone.
    state.n_udata = 1;
    state.outbound_udata_messages[0] = Entry {
        sent: TmaUnitdataReq {
            ssi: 0x202122,
            ssi_type: 2,
            carrier_num: 0x2324,
            link_id: 0x25262728,
            endpoint_id: 0x292a2b2c,
            req_handle: 0x2d2e2f30,
            stealing_permission: true,
            has_mask: true,
            mask: 9,
            receipt: 0x31,
            block_len: 64,
            block: array::from_fn(|i| 0x80 + i as u8),
            ..NO_SENT
        },
        frame: FramePlace { place: 0, len: 23 },
        progress: NO_PROGRESS,
    };
    state.receipts[0x31].taken = true;
    let block: String = (0x80..0xc0).map(|byte| format!("{byte:02x}")).collect();
    let request = format!("25 005c 202122 02 01 2324 25262728 292a2b2c 2d2e2f30 05 09 31 40 {block} 0013 fedce0");
    link.call(&request, 0, &state);
    state.n_udata = 2;
    state.outbound_udata_messages[1] = Entry {
        sent: TmaUnitdataReq {
            ssi: 0x404142,
            ssi_type: 1,
            carrier_num: 0x1234,
            link_id: 0x45464748,
            endpoint_id: 0x494a4b4c,
            req_handle: 0x4d4e4f50,
            has_mask: true,
            mask: 6,
            receipt: 0x32,
            ..NO_SENT
        },
        frame: FramePlace { place: 1, len: 4 },
        progress: NO_PROGRESS,
    };
    state.receipts[0x32].taken = true;
    link.call(
        "25 0019 404142 01 00 0000 45464748 494a4b4c 4d4e4f50 04 06 32 00 0000",
        0,
        &state,
    );

    // Data requests, two of them to one SSI: N(S) 0 and 1.
    state.n_messages = 1;
    state.outbound_messages[0] = Entry {
        sent: TmaUnitdataReq {
            ssi: 0x606162,
            ssi_type: 1,
            carrier_num: 0x1234,
            endpoint_id: 0x696a6b6c,
            req_handle: 0x6d6e6f70,
            receipt: 0x33,
            block_len: 3,
            ..NO_SENT
        },
        frame: FramePlace { place: 2, len: 21 },
        progress: NO_PROGRESS,
    };
    state.outbound_messages[0].sent.block[..3].copy_from_slice(&[0x71, 0x72, 0x73]);
    state.receipts[0x33] = ReceiptPlace {
        taken: true,
        expects_ack: true,
        state: 0,
    };
    state.n_rows = 3;
    state.link_send_seq[2] = LinkSendSeq {
        ssi: 0x606162,
        vs: true,
        ..NO_ROW
    };
    link.call(
        "24 001e 606162 01 00 0000 65666768 696a6b6c 6d6e6f70 00 00 33 03 717273 0010 4d31",
        0,
        &state,
    );
    state.n_messages = 2;
    state.outbound_messages[1] = Entry {
        sent: TmaUnitdataReq {
            receipt: 0x34,
            block_len: 0,
            block: [0; 64],
            ..state.outbound_messages[0].sent
        },
        frame: FramePlace { place: 3, len: 5 },
        progress: Progress {
            ns: true,
            ..state.outbound_messages[0].progress
        },
    };
    state.receipts[0x34] = state.receipts[0x33];
    state.link_send_seq[2].vs = false;
    link.call(
        "24 0019 606162 01 00 0000 65666768 696a6b6c 6d6e6f70 00 00 34 00 0000",
        0,
        &state,
    );
    state.n_messages = 3;
    state.outbound_messages[2] = Entry {
        sent: TmaUnitdataReq {
            ssi: 0x747576,
            ssi_type: 1,
            carrier_num: 0x7778,
            receipt: 0x35,
            ..NO_SENT
        },
        frame: FramePlace { place: 4, len: 6 },
        progress: NO_PROGRESS,
    };
    state.receipts[0x35] = state.receipts[0x33];
    state.n_rows = 4;
    state.link_send_seq[3] = LinkSendSeq {
        ssi: 0x747576,
        vs: true,
        ..NO_ROW
    };
    link.call(
        "24 001a 747576 01 01 7778 00000000 00000000 00000000 00 00 35 00 0001 80",
        0,
        &state,
    );

    // A frame with N(S) 1 from an SSI that has a row already, and its repeat: nothing goes up, and it is acknowledged too.
    for (due, len) in [(2, 35), (3, 0)] {
        state.n_acks = due + 1;
        state.scheduled_out_acks[due] = ScheduledOutAck {
            ssi: 0x747576,
            ssi_type: 1,
            carrier_num: 0x7778,
            nr: true,
            ts: 3,
        };
        state.link_send_seq[3].has_last_ns = true;
        state.link_send_seq[3].last_ns = true;
        link.call("26 0012 747576 01 7778 00000000 00000000 00 0005 18", len, &state);
    }

    // Tick end: the first of each SSI is passed down; replies and unacknowledged messages have gone.
    state.outbound_messages[0].progress.submitted_to_umac = true;
    state.outbound_messages[2].progress.submitted_to_umac = true;
    state.n_udata = 0;
    state.outbound_udata_messages = NEW.outbound_udata_messages;
    state.n_acks = 0;
    state.scheduled_out_acks = NEW.scheduled_out_acks;
    let (message, reply, mask) = (4 + 6 + 4 + 5 + 7 + 7 + 7 + 4 + 4 + 3, 4 + 6 + 4 + 5 + 7 + 7 + 7 + 4, 4);
    let records = (message + 3 + 8) + (message + 6) + 4 * (reply + mask + 6) + (message + mask + 64 + 8) + (message + mask + 6);
    link.call("23 0000", records, &state);

    // Reports.
    state.receipts[0x33].state = 2;
    link.call("27 0002 33 01", 0, &state);
    state.receipts[0x31].state = 1;
    link.call("27 0002 31 02", 0, &state);

    // The next tick end notes when: a done time.
    state.dltime = TdmaTime {
        t: 2,
        f: 3,
        m: 35,
        h: 0x9abd,
    };
    link.call("22 0005 9abd 23 03 02", 0, &state);
    state.outbound_messages[0].progress.has_umac_done = true;
    state.outbound_messages[0].progress.t_umac_done = state.dltime;
    link.call("23 0000", 0, &state);

    // Much later it is sent again: not done, a count of 1; and then done once more.
    state.dltime = TdmaTime {
        t: 3,
        f: 4,
        m: 36,
        h: 0x9abe,
    };
    link.call("22 0005 9abe 24 04 03", 0, &state);
    state.outbound_messages[0].progress.has_umac_done = false;
    state.outbound_messages[0].progress.retransmit_count = 1;
    state.receipts[0x33].state = 0;
    link.call("23 0000", message + 3 + 8, &state);
    state.receipts[0x33].state = 2;
    link.call("27 0002 33 01", 0, &state);
    state.outbound_messages[0].progress.has_umac_done = true;
    state.outbound_messages[0].progress.t_umac_done = state.dltime;
    link.call("23 0000", 0, &state);

    // BL-ACK with N(R) 0: acknowledged, and the others move up.
    state.n_messages = 2;
    state.outbound_messages.copy_within(1..3, 0);
    state.outbound_messages[2] = NO_ENTRY;
    state.receipts[0x33].state = 4;
    link.call("26 0012 606162 01 1234 00000000 00000000 00 0005 30", 0, &state);

    // Release.
    state.receipts[0x33] = NO_RECEIPT;
    link.call("28 0001 33", 0, &state);

    // A start empties everything.
    state = State {
        started: true,
        main_carrier: 0x5678,
        t251: 1,
        ..NEW
    };
    link.call("21 0004 5678 0001", 0, &state);

    // T251 one slot: sent four times, reported each time, and then lost.
    state.n_messages = 1;
    state.outbound_messages[0] = Entry {
        sent: TmaUnitdataReq {
            ssi: 0x808182,
            ssi_type: 1,
            carrier_num: 0x5678,
            receipt: 0x7f,
            ..NO_SENT
        },
        frame: FramePlace { place: 0, len: 5 },
        progress: NO_PROGRESS,
    };
    state.receipts[0x7f] = ReceiptPlace {
        taken: true,
        expects_ack: true,
        state: 0,
    };
    state.n_rows = 1;
    state.link_send_seq[0] = LinkSendSeq {
        ssi: 0x808182,
        vs: true,
        ..NO_ROW
    };
    link.call(
        "24 0019 808182 01 00 0000 00000000 00000000 00000000 00 00 7f 00 0000",
        0,
        &state,
    );
    for resends in 0..4 {
        state.outbound_messages[0].progress.submitted_to_umac = true;
        state.outbound_messages[0].progress.has_umac_done = false;
        state.outbound_messages[0].progress.retransmit_count = resends;
        state.receipts[0x7f].state = 0;
        link.call("23 0000", message + 6, &state);
        state.receipts[0x7f].state = 2;
        link.call("27 0002 7f 01", 0, &state);
        state.outbound_messages[0].progress.has_umac_done = true;
        state.outbound_messages[0].progress.t_umac_done = state.dltime;
        link.call("23 0000", 0, &state);
        state.dltime.f += 1;
        link.call(&format!("22 0005 0000 01 {:02x} 01", state.dltime.f), 0, &state);
    }
    state.n_messages = 0;
    state.outbound_messages[0] = NO_ENTRY;
    state.receipts[0x7f].state = 3;
    link.call("23 0000", 0, &state);
}

#[test]
fn a_last_ns_that_there_is_not_is_not_read() {
    let mut link = Known::new();
    let mut state = NEW;
    state.started = true;
    state.t251 = 1;
    link.call("21 0004 0000 0001", 0, &state);

    // Handed in: a row without a last N(S), whose last_ns is set all the same.
    state.n_rows = 1;
    state.link_send_seq[0] = LinkSendSeq {
        ssi: 0x0a0b0c,
        vs: true,
        has_last_ns: false,
        last_ns: true,
    };
    link.state = state;

    // A frame with N(S) 1 is the first: it goes up.
    state.n_acks = 1;
    state.scheduled_out_acks[0] = ScheduledOutAck {
        ssi: 0x0a0b0c,
        ssi_type: 1,
        carrier_num: 0x0d0e,
        nr: true,
        ts: 3,
    };
    state.link_send_seq[0].has_last_ns = true;
    link.call("26 0012 0a0b0c 01 0d0e 00000000 00000000 00 0005 18", 35, &state);
}

//! The exported functions of the engine, the structs that they take and the lengths that they want, as the Rattle source declares
//! them. tests/layout.rs holds structs and lengths to that source, tests/state.rs and tests/output.rs to the compiled archive.

/// How many bytes the store has.
// crates/llc/src/entry.rt, STORE
pub const STORE: usize = 32_256;

/// How many bytes the output has at least.
// crates/llc/src/entry.rt, OUTPUT
pub const OUTPUT: usize = 47_040;

/// A slot, by its place in the frame, the multiframe and the hyperframe.
// crates/tdma_time/src/lib.rt, TdmaTime
#[repr(C)]
#[derive(Clone, Copy, Debug, PartialEq, Eq)]
pub struct TdmaTime {
    /// Timeslot, from 1 to 4.
    pub t: u8,
    /// Frame number, from 1 to 18.
    pub f: u8,
    /// Multiframe number, from 1 to 60.
    pub m: u8,
    /// Hyperframe number, from 0 to 65,535.
    pub h: u16,
}

/// What is handed down of a message, but for its frame.
// crates/llc_state/src/lib.rt, TmaUnitdataReq
#[repr(C)]
#[derive(Clone, Copy, Debug, PartialEq)]
pub struct TmaUnitdataReq {
    pub ssi: u32,
    pub ssi_type: u8,
    pub carrier_num: u16,
    pub link_id: u32,
    pub endpoint_id: u32,
    pub req_handle: u32,
    pub stealing_permission: bool,
    pub has_mask: bool,
    pub mask: u8,
    pub receipt: u8,
    pub block_len: usize,
    pub block: [u8; 64],
}

/// Where a frame's bits lie in the store.
// crates/llc_state/src/lib.rt, FramePlace
#[repr(C)]
#[derive(Clone, Copy, Debug, PartialEq)]
pub struct FramePlace {
    pub place: usize,
    pub len: usize,
}

/// How far a message has come.
// crates/llc_state/src/lib.rt, Progress
#[repr(C)]
#[derive(Clone, Copy, Debug, PartialEq)]
pub struct Progress {
    pub ns: bool,
    pub submitted_to_umac: bool,
    pub has_umac_done: bool,
    pub t_umac_done: TdmaTime,
    pub retransmit_count: u8,
}

/// A message that the link holds.
// crates/llc_state/src/lib.rt, Entry
#[repr(C)]
#[derive(Clone, Copy, Debug, PartialEq)]
pub struct Entry {
    pub sent: TmaUnitdataReq,
    pub frame: FramePlace,
    pub progress: Progress,
}

/// An acknowledgement that is due.
// crates/llc_state/src/lib.rt, ScheduledOutAck
#[repr(C)]
#[derive(Clone, Copy, Debug, PartialEq)]
pub struct ScheduledOutAck {
    pub ssi: u32,
    pub ssi_type: u8,
    pub carrier_num: u16,
    pub nr: bool,
    pub ts: u8,
}

/// The place of a receipt.
// crates/llc_state/src/lib.rt, ReceiptPlace
#[repr(C)]
#[derive(Clone, Copy, Debug, PartialEq)]
pub struct ReceiptPlace {
    pub taken: bool,
    pub expects_ack: bool,
    pub state: u8,
}

/// The row of an SSI: its send sequence variable, and the last N(S) that was accepted from it.
// crates/llc_state/src/lib.rt, LinkSendSeq
#[repr(C)]
#[derive(Clone, Copy, Debug, PartialEq)]
pub struct LinkSendSeq {
    pub ssi: u32,
    pub vs: bool,
    pub has_last_ns: bool,
    pub last_ns: bool,
}

/// The link.
// crates/llc_state/src/lib.rt, State
#[repr(C)]
#[derive(Clone, Copy, Debug, PartialEq)]
pub struct State {
    pub started: bool,
    pub main_carrier: u16,
    pub t251: u16,
    pub dltime: TdmaTime,
    pub n_messages: usize,
    pub n_udata: usize,
    pub n_acks: usize,
    pub n_rows: usize,
    pub outbound_messages: [Entry; 64],
    pub outbound_udata_messages: [Entry; 32],
    pub scheduled_out_acks: [ScheduledOutAck; 64],
    pub receipts: [ReceiptPlace; 128],
    pub link_send_seq: [LinkSendSeq; 256],
}

/// What a call gives.
// crates/llc_steps/src/lib.rt, Answer
#[repr(C)]
#[derive(Clone, Copy, Debug, PartialEq)]
pub struct Answer {
    pub state: State,
    pub len: usize,
    pub number: u8,
}

// SAFETY: these are the functions that the archive exports, with these structs.
unsafe extern "C" {
    /// The state of a link that was never started.
    // crates/llc_exports/src/lib.rt, wipturay_new
    pub safe fn wipturay_new() -> State;

    /// One call of any bytes, on any state, with any store and output.
    ///
    /// Rattle declares it with `Answer` as its result and without `answer`. On x86-64 (System V) a result in memory is
    /// written where a hidden first argument points to; named here, it saves a copy of the whole state for each call.
    // crates/llc_exports/src/lib.rt, wipturay_call
    pub fn wipturay_call(
        answer: *mut Answer,
        state: State,
        store: *mut u8,
        store_len: usize,
        out: *mut u8,
        out_len: usize,
        bytes: *const u8,
        bytes_len: usize,
    );
}

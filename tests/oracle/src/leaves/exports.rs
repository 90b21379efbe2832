//! The proved leaves, as crates/leaf_exports exports them.
use tetra_core::TdmaTime;

/// A window over lent bits.
#[repr(C)]
#[derive(Clone, Copy, Debug, PartialEq, Eq, Default)]
pub struct Window {
    pub start: usize,
    pub pos: usize,
    pub end: usize,
    pub expands: bool,
}

/// What a function on a window answers.
#[repr(C)]
#[derive(Clone, Copy, Debug, PartialEq, Eq)]
pub struct WindowAnswer {
    pub number: u8,
    pub is_found: bool,
    pub value: u64,
    pub window: Window,
}

/// What a copy answers.
#[repr(C)]
#[derive(Clone, Copy, Debug, PartialEq, Eq)]
pub struct CopyAnswer {
    pub number: u8,
    pub to: Window,
    pub from: Window,
}

/// What reading a frame answers.
#[repr(C)]
#[derive(Clone, Copy, Debug, PartialEq, Eq)]
pub struct FrameAnswer {
    pub number: u8,
    pub kind: u8,
    pub has_fcs: bool,
    pub nr: bool,
    pub ns: bool,
    pub first: usize,
    pub len: usize,
    pub place: usize,
}

/// A slot time.
#[repr(C)]
#[derive(Clone, Copy, Debug, PartialEq, Eq)]
pub struct Time {
    pub t: u8,
    pub f: u8,
    pub m: u8,
    pub h: u16,
}

impl Time {
    /// The same time of the Rust.
    pub fn rust(self) -> TdmaTime {
        TdmaTime { t: self.t, f: self.f, m: self.m, h: self.h }
    }

    /// The time of the Rust, here.
    pub fn of(time: TdmaTime) -> Time {
        Time { t: time.t, f: time.f, m: time.m, h: time.h }
    }
}

/// A number, and a time.
#[repr(C)]
#[derive(Clone, Copy, Debug, PartialEq, Eq)]
pub struct TimeAnswer {
    pub number: u8,
    pub time: Time,
}

/// A number, and slots.
#[repr(C)]
#[derive(Clone, Copy, Debug, PartialEq, Eq)]
pub struct SlotsAnswer {
    pub number: u8,
    pub slots: i32,
}

/// A number, and a receipt.
#[repr(C)]
#[derive(Clone, Copy, Debug, PartialEq, Eq)]
pub struct ReceiptAnswer {
    pub number: u8,
    pub expects_ack: bool,
    pub state: u8,
}

// Lent bytes are their address and how many they are. Each function takes every value of its types.
unsafe extern "C" {
    pub fn leaf_new(w: Window, bytes: *const u8, count: usize, len_bits: usize) -> WindowAnswer;
    pub fn leaf_from_bytes(bytes: *const u8, count: usize) -> Window;
    pub safe fn leaf_new_autoexpand() -> Window;
    pub fn leaf_get_len(w: Window, bytes: *const u8, count: usize) -> WindowAnswer;
    pub fn leaf_get_len_remaining(w: Window, bytes: *const u8, count: usize) -> WindowAnswer;
    pub fn leaf_get_pos(w: Window, bytes: *const u8, count: usize) -> WindowAnswer;
    pub safe fn leaf_get_raw_start(w: Window) -> usize;
    pub safe fn leaf_get_raw_pos(w: Window) -> usize;
    pub safe fn leaf_get_raw_end(w: Window) -> usize;
    pub fn leaf_seek(w: Window, bytes: *const u8, count: usize, offset: usize) -> WindowAnswer;
    pub fn leaf_seek_rel(w: Window, bytes: *const u8, count: usize, offset: isize) -> WindowAnswer;
    pub fn leaf_set_raw_start(w: Window, bytes: *const u8, count: usize, start: usize) -> WindowAnswer;
    pub fn leaf_set_raw_pos(w: Window, bytes: *const u8, count: usize, pos: usize) -> WindowAnswer;
    pub fn leaf_set_raw_end(w: Window, bytes: *const u8, count: usize, end: usize) -> WindowAnswer;
    pub fn leaf_peek_bits(w: Window, bytes: *const u8, count: usize, num_bits: usize) -> WindowAnswer;
    pub fn leaf_peek_bits_startoffset(w: Window, bytes: *const u8, count: usize, offset: usize, num_bits: usize) -> WindowAnswer;
    pub fn leaf_peek_bits_posoffset(w: Window, bytes: *const u8, count: usize, offset: isize, num_bits: usize) -> WindowAnswer;
    pub fn leaf_read_bits(w: Window, bytes: *const u8, count: usize, num_bits: usize) -> WindowAnswer;
    pub fn leaf_read_bit(w: Window, bytes: *const u8, count: usize) -> WindowAnswer;
    pub fn leaf_write_bits(w: Window, bytes: *mut u8, count: usize, value: u64, num_bits: usize) -> WindowAnswer;
    pub fn leaf_write_bit(w: Window, bytes: *mut u8, count: usize, value: u8) -> WindowAnswer;
    pub fn leaf_write_zeroes(w: Window, bytes: *mut u8, count: usize, num_bits: usize) -> WindowAnswer;
    pub fn leaf_write_ones(w: Window, bytes: *mut u8, count: usize, num_bits: usize) -> WindowAnswer;
    pub fn leaf_copy_bits(
        w: Window,
        bytes: *mut u8,
        count: usize,
        v: Window,
        src: *const u8,
        src_count: usize,
        num_bits: usize,
    ) -> CopyAnswer;
    pub fn leaf_from_bitbuffer_pos(w: Window, bytes: *const u8, count: usize, out: *mut u8, out_count: usize) -> WindowAnswer;
    pub fn leaf_from_bitbuf(frame: *const u8, count: usize, len: usize) -> FrameAnswer;
    pub fn leaf_to_bitbuf(
        kind: u8,
        has_fcs: bool,
        nr: bool,
        ns: bool,
        out: *mut u8,
        out_count: usize,
        sdu: *const u8,
        sdu_count: usize,
        from: usize,
        len: usize,
    ) -> u64;
    pub fn leaf_fcs(part: *const u8, count: usize, at: usize, len: usize) -> u64;
    pub fn leaf_check_fcs(part: *const u8, count: usize, at: usize, len: usize) -> u64;
    pub safe fn leaf_type(x: u64) -> u64;
    pub safe fn leaf_first_time() -> Time;
    pub safe fn leaf_is_valid(a: Time) -> bool;
    pub safe fn leaf_to_int(a: Time) -> SlotsAnswer;
    pub safe fn leaf_from_int(time: i32) -> Time;
    pub safe fn leaf_add_timeslots(a: Time, num_slots: i32) -> TimeAnswer;
    pub safe fn leaf_diff(a: Time, b: Time) -> SlotsAnswer;
    pub safe fn leaf_age(a: Time, at: Time) -> SlotsAnswer;
    pub safe fn leaf_forward_to_timeslot(a: Time, ts: u8) -> TimeAnswer;
    pub safe fn leaf_mark_transmitted(expects_ack: bool, state: u8) -> ReceiptAnswer;
    pub safe fn leaf_mark_discarded(expects_ack: bool, state: u8) -> ReceiptAnswer;
    pub safe fn leaf_mark_acknowledged(expects_ack: bool, state: u8) -> ReceiptAnswer;
    pub safe fn leaf_mark_lost(expects_ack: bool, state: u8) -> ReceiptAnswer;
    pub safe fn leaf_reset(expects_ack: bool, state: u8) -> ReceiptAnswer;
    pub safe fn leaf_is_discarded(expects_ack: bool, state: u8) -> bool;
    pub safe fn leaf_is_transmitted(expects_ack: bool, state: u8) -> bool;
    pub safe fn leaf_is_acknowledged(expects_ack: bool, state: u8) -> bool;
    pub safe fn leaf_is_in_final_state(expects_ack: bool, state: u8) -> bool;
}

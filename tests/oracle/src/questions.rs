//! Document 01's questions 4 to 16, read plainly. What they are put to is the Rust's own queues and receipts, and the rows with
//! those that frames made.
use crate::call::{Call, Frame, Request};
use crate::caught::caught;
use crate::faults::{self, Fault};
use crate::header::{self, Header};
use crate::message;
use crate::oracle::{DUE, MESSAGES, Oracle, RECEIPTS, Started, UNACKNOWLEDGED, is_on, is_under_way, mark};
use tetra_core::TxState;
use tetra_entities::llc::llc_bs_ms::ExpectedInAck;
use tetra_entities::{MessageQueue, TetraEntityTrait};

impl Oracle {
    /// Questions 4 to 16.
    pub fn number(&mut self, call: &Call, fault: &mut Option<String>) -> u8 {
        if self.link.is_none() && !matches!(call, Call::Start { .. }) {
            return 4;
        }
        if !in_range(call) {
            match call {
                Call::Data(r) | Call::Unitdata(r) if r.bit_count == 2596 => self.coverage.count("SDU of 2,596 bits"),
                Call::Data(r) | Call::Unitdata(r) if self.receipts.get(r.receipt as usize).is_some_and(|held| held.is_some()) => {
                    self.coverage.count("5 with a taken receipt")
                }
                Call::Frame(f) if f.bit_count == 2634 => self.coverage.count("frame of 2,634 bits"),
                _ => {}
            }
            return 5;
        }
        match call {
            Call::Start { .. } | Call::TickStart { .. } | Call::TickEnd => 0,
            Call::Data(request) => self.request_number(0x24, request, request.is_acknowledged()),
            Call::Unitdata(request) => self.request_number(0x25, request, false),
            Call::Frame(frame) => self.frame_number(frame, fault),
            Call::Report { receipt, value } => self.report_number(*receipt, *value, fault),
            Call::Release { receipt } => self.release_number(*receipt),
        }
    }

    /// Questions 6 to 8, in this order.
    fn request_number(&mut self, tag: u8, request: &Request, is_acknowledged: bool) -> u8 {
        let Some(started) = &self.link else {
            return 4;
        };
        let is_full = if is_acknowledged {
            started.llc.messages().len() >= MESSAGES
        } else {
            started.llc.unacknowledged().len() >= UNACKNOWLEDGED
        };
        let is_taken = self.receipts[request.receipt as usize].is_some();
        let is_rowless = is_acknowledged && !started.has_room(tag, request.ssi);
        let first = match faults::asked_first(tag) {
            Some(7) if is_rowless => 7,
            Some(8) if is_full => 8,
            _ if is_taken => 6,
            _ if is_rowless => 7,
            _ if is_full => 8,
            _ => 0,
        };
        match first {
            6 if is_full => self.coverage.count("6 with a full queue"),
            7 if is_full => self.coverage.count("7 with 64 messages"),
            8 => self.coverage.count(if is_acknowledged { "8 with 64 messages" } else { "8 with 32 messages" }),
            _ => {}
        }
        first
    }

    /// Questions 9 to 12, 7, 13 and 14, in this order. The Rust has to return silently for 9 to 12, and to panic half way for 14.
    fn frame_number(&mut self, frame: &Frame, fault: &mut Option<String>) -> u8 {
        let Some(started) = &mut self.link else {
            return 4;
        };
        let is_full = started.llc.due().len() >= DUE;
        if faults::is(Fault::ThirteenFirst) && is_full {
            return 13;
        }
        let has_ns = header::unchecked(&frame.bits, frame.bit_count as usize).is_ok_and(|header| header.ns.is_some());
        let is_rowless = !started.has_room(0x26, frame.ssi);
        if faults::is(Fault::SevenBeforeTwelve) && has_ns && is_rowless {
            return 7;
        }
        let header = match header::read(&frame.bits, frame.bit_count as usize) {
            Ok(header) => header,
            Err(number) => {
                let before = started.llc.picture();
                let mut queue = MessageQueue::new();
                let fed = caught(|| started.llc.rx_prim(&mut queue, message::frame(frame)));
                if fed.is_none() || queue.pop_front().is_some() || started.llc.picture() != before {
                    *fault = Some(format!("the Rust does not return silently where the number is {number}"));
                }
                self.coverage.count("the Rust returned silently");
                if number == 12 && is_full {
                    self.coverage.count("12 with 64 due");
                }
                if number == 12 && has_ns && is_rowless {
                    self.coverage.count("12 with every row taken");
                }
                return number;
            }
        };
        let is_wrong = |m: &ExpectedInAck| m.tx_reporter.get_state() != TxState::Transmitted;
        let is_panic = finished_by(started, frame, &header).is_some_and(is_wrong);
        let is_rowless = is_rowless && (has_ns || faults::is(Fault::SevenAskedOf(header::kind(&frame.bits))));
        let is_full = is_full && has_ns;
        let first = match () {
            _ if is_full && faults::is(Fault::ThirteenBeforeSeven) => 13,
            _ if is_rowless && !faults::is(Fault::SevenNotAsked) => 7,
            _ if is_panic && faults::is(Fault::FourteenFirst) => 14,
            _ if is_full => 13,
            _ if is_panic => 14,
            _ => 0,
        };
        match first {
            7 if is_full => self.coverage.count("7 with 64 due"),
            13 if is_panic => self.coverage.count("13 where N(R) meets a discarded message"),
            _ => {}
        }
        if first == 14 {
            let mut copy = started.llc.throw_away();
            let (held, due) = (copy.messages().len(), copy.due().len());
            let fed = caught(|| copy.rx_prim(&mut MessageQueue::new(), message::frame(frame)));
            // By then the reply is due and the message is gone.
            let is_half_done = copy.messages().len() + 1 == held && copy.due().len() == due + header.ns.is_some() as usize;
            if fed.is_some() || !is_half_done {
                *fault = Some("the Rust does not panic half way where the number is 14".into());
            }
            self.coverage.count("the Rust panicked for 14");
        }
        first
    }

    /// Question 15. The Rust has to panic on a receipt that is not Pending, and to take the mark of a message that waits.
    fn report_number(&mut self, receipt: u8, value: u8, fault: &mut Option<String>) -> u8 {
        let (Some(started), Some(reporter)) = (&self.link, &self.receipts[receipt as usize]) else {
            return 15;
        };
        if reporter.get_state() != TxState::Pending {
            if caught(|| mark(reporter, value)).is_some() {
                *fault = Some("the Rust takes a mark where the number is 15".into());
            }
            self.coverage.count("the Rust panicked for 15");
            return 15;
        }
        let waits = |m: &ExpectedInAck| m.tx_reporter.is_same(reporter) && m.t_submitted_to_umac.is_none();
        if started.llc.messages().iter().any(waits) || started.llc.unacknowledged().iter().any(|m| is_on(m, reporter)) {
            if caught(|| mark(reporter, value)).is_none() {
                *fault = Some("the Rust does not take a mark on a message that waits".into());
            }
            // As if it had not been.
            reporter.reset();
            self.coverage.count("report on a waiting message");
            return 15;
        }
        0
    }

    /// Question 16.
    fn release_number(&mut self, receipt: u8) -> u8 {
        let (Some(started), Some(reporter)) = (&self.link, &self.receipts[receipt as usize]) else {
            return 16;
        };
        let is_held = started.llc.messages().iter().any(|m| m.tx_reporter.is_same(reporter))
            || started.llc.unacknowledged().iter().any(|m| is_on(m, reporter));
        if is_held || !reporter.is_in_final_state() {
            return 16;
        }
        self.coverage.count(match reporter.get_state() {
            TxState::Pending => "released pending",
            TxState::Discarded => "released discarded",
            TxState::Transmitted => "released transmitted",
            TxState::Lost => "released lost",
            TxState::Acknowledged => "released acknowledged",
        });
        0
    }
}

/// The message that N(R) of a frame would finish: under way, on the frame's carrier, with a done time and N(S) equal to N(R).
fn finished_by<'a>(started: &'a Started, frame: &Frame, header: &Header) -> Option<&'a ExpectedInAck> {
    let nr = header.nr?;
    let message = started.llc.messages().iter().find(|m| is_under_way(m, frame.ssi))?;
    (message.carrier_num == frame.carrier && message.t_umac_done.is_some() && message.ns == nr).then_some(message)
}

/// Question 5, part by part.
fn in_range(call: &Call) -> bool {
    let holds = |tag: u8, part: &'static str, holds: bool| holds || faults::is(Fault::NotAsked(tag, part));
    let is_request = |tag: u8, r: &Request| {
        let flags = [(8, "flag 8"), (16, "flag 16"), (32, "flag 32"), (64, "flag 64"), (128, "flag 128")];
        holds(tag, "type", (1..=2).contains(&r.kind))
            && holds(tag, "carrier given", r.carrier_given < 2)
            && flags.iter().all(|(flag, name)| holds(tag, name, r.flags & flag == 0))
            && holds(tag, "receipt", (r.receipt as usize) < RECEIPTS)
            && holds(tag, "mask under 16", r.mask < 16)
            && holds(tag, "mask with flag 4", r.mask == 0 || r.flags & 4 != 0)
            && holds(tag, "carrier 0", r.carrier == 0 || r.carrier_given == 1)
            && holds(tag, "block", r.block.len() <= 64)
            && holds(tag, "SDU", r.bit_count <= 2595)
    };
    match call {
        Call::Start { t251, .. } => holds(0x21, "T251", *t251 != 0),
        Call::TickStart { m, f, t, .. } => {
            holds(0x22, "m", (1..=60).contains(m))
                && holds(0x22, "f", (1..=18).contains(f))
                && holds(0x22, "t", (1..=4).contains(t))
        }
        Call::TickEnd => true,
        Call::Data(r) => is_request(0x24, r),
        Call::Unitdata(r) => is_request(0x25, r),
        Call::Frame(f) => {
            holds(0x26, "type", (1..=2).contains(&f.kind))
                && holds(0x26, "block", f.block.len() <= 64)
                && holds(0x26, "frame", f.bit_count <= 2633)
        }
        Call::Report { receipt, value } => {
            holds(0x27, "receipt", (*receipt as usize) < RECEIPTS) && holds(0x27, "report", (1..=2).contains(value))
        }
        Call::Release { receipt } => holds(0x28, "receipt", (*receipt as usize) < RECEIPTS),
    }
}

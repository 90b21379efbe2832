//! What an accepted call does to the Rust's queues, for the coverage.
use crate::call::{Frame, Request};
use crate::coverage::Coverage;
use crate::header;
use crate::oracle::{MESSAGES, Started, is_under_way};
use tetra_core::tdma_time::TIME_INT_WRAP;
use tetra_core::{TxReporter, TxState};
use tetra_entities::llc::llc_bs_ms::Llc;
use tetra_saps::SapMsgInner;

/// What was there before a tick end.
pub struct TickSight {
    resends: usize,
    sent: usize,
    held: Vec<TxReporter>,
}

/// The resends that the messages held have had.
fn resends(llc: &Llc) -> usize {
    llc.messages().iter().map(|m| m.retransmit_count as usize).sum()
}

/// How many messages are under way.
fn sent(llc: &Llc) -> usize {
    llc.messages().iter().filter(|m| m.t_submitted_to_umac.is_some()).count()
}

impl TickSight {
    /// Looks before a tick end.
    pub fn before(started: &Started, coverage: &mut Coverage) -> TickSight {
        let Started { llc, t251, now, .. } = started;
        let t251 = *t251 as i32;
        let edges = [(t251, "age T251"), (t251 - 1, "age T251 - 1"), (-1, "age -1"), (-TIME_INT_WRAP / 2, "age -W/2")];
        for done in llc.messages().iter().filter_map(|m| m.t_umac_done) {
            for (edge, what) in edges {
                if now.diff(done) == edge {
                    coverage.count(what);
                }
            }
        }
        for ack in llc.due() {
            coverage.count(if ack.ts == 1 { "reply that does not steal" } else { "reply that steals" });
        }
        let held = llc.messages().iter().map(|m| m.tx_reporter.clone()).collect();
        TickSight { resends: resends(llc), sent: sent(llc), held }
    }

    /// Looks after it.
    pub fn after(self, llc: &Llc, coverage: &mut Coverage) {
        let gone = self.held.len() - llc.messages().len();
        // Each that went had been resent three times.
        let resent = resends(llc) + 3 * gone - self.resends;
        let first = sent(llc) + gone - self.sent;
        for _ in 0..resent {
            coverage.count("resend");
        }
        for _ in 0..first {
            coverage.count("first sending");
        }
        if resent > 1 {
            coverage.count("resends to several addresses in one tick end");
        }
        if gone > 0 && first > 0 {
            coverage.count("gone, and the next sent in the same tick end");
        }
        for reporter in self.held {
            if !llc.messages().iter().any(|m| m.tx_reporter.is_same(&reporter)) {
                coverage.count(if reporter.get_state() == TxState::Lost { "lost" } else { "gone discarded" });
            }
        }
    }
}

/// The message under way that a frame's N(R) meets behind the front of the queue.
pub struct FrameSight {
    behind: Option<TxReporter>,
    is_repeat: bool,
}

impl FrameSight {
    /// Looks before a frame.
    pub fn before(started: &Started, frame: &Frame, coverage: &mut Coverage) -> FrameSight {
        let nothing = FrameSight { behind: None, is_repeat: false };
        if frame.bit_count == 2633 {
            coverage.count("frame of 2,633 bits");
        }
        let Ok(header) = header::read(&frame.bits, frame.bit_count as usize) else {
            return nothing;
        };
        if header.has_fcs {
            coverage.count("FCS right");
            if frame.bit_count == 2633 {
                coverage.count("frame of 2,633 bits with FCS");
            }
        }
        let Some(nr) = header.nr else {
            return nothing;
        };
        let is_repeat = started.is_repeat(frame, &header);
        let messages = started.llc.messages();
        let Some(place) = messages.iter().position(|m| is_under_way(m, frame.ssi)) else {
            coverage.count("N(R) with nothing under way");
            if is_repeat {
                coverage.count("repeat with nothing under way");
            }
            return nothing;
        };
        let message = &messages[place];
        if message.carrier_num != frame.carrier {
            coverage.count("N(R) on another carrier");
        } else if message.t_umac_done.is_none() {
            coverage.count("N(R) before the tick end");
        } else if message.ns != nr {
            coverage.count("N(R) that does not fit");
        } else {
            coverage.count("acknowledged");
            if is_repeat {
                coverage.count("repeat that acknowledges");
            }
            if frame.kind == 2 {
                coverage.count("acknowledged by a group frame");
            }
        }
        FrameSight { behind: (place > 0).then(|| message.tx_reporter.clone()), is_repeat }
    }

    /// Looks after it.
    pub fn after(self, llc: &Llc, coverage: &mut Coverage) {
        let is_first = |reporter: TxReporter| llc.messages().front().is_some_and(|m| m.tx_reporter.is_same(&reporter));
        if self.behind.is_some_and(is_first) {
            coverage.count("moved to the front");
            if self.is_repeat {
                coverage.count("repeat that moves to the front");
            }
        }
    }
}

/// Looks at the header that the Rust wrote for a data request.
pub fn request(llc: &Llc, request: &Request, coverage: &mut Coverage) {
    if request.bit_count == 2595 {
        coverage.count("SDU of 2,595 bits");
    }
    if llc.messages().len() == MESSAGES {
        coverage.count("64 messages held");
    }
    let last = if request.is_acknowledged() {
        llc.messages().back().map(|m| &m.retransmission_buf)
    } else {
        llc.unacknowledged().back()
    };
    if let Some(SapMsgInner::TmaUnitdataReq(down)) = last.map(|m| &m.msg) {
        coverage.count(match down.pdu.peek_bits(4).unwrap_or(0) & 3 {
            0 => "BL-ADATA on a request",
            1 => "BL-DATA on a request",
            2 => "BL-UDATA on a data request",
            _ => "BL-ACK on a request",
        });
    }
}

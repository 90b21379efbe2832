//! What is compared of what a link holds, also of the Rust's link.
use crate::oracle::{Oracle, RECEIPTS, Started};
use std::fmt;
use tetra_core::{TdmaTime, TxReporter, TxState};
use wipturay::{AddressRow, Link};

/// The receipt of a request.
#[derive(Clone, Copy, PartialEq)]
struct Receipt {
    mark: TxState,
    expects_ack: bool,
}

/// What is held after a call.
#[derive(Clone, PartialEq)]
pub struct Held {
    /// Main carrier, T251 and time of a link that was started.
    started: Option<(u16, u16, TdmaTime)>,
    /// Acknowledged messages, unacknowledged messages, acknowledgements due.
    counts: [usize; 3],
    /// The rows, in the order of their SSIs.
    rows: Vec<AddressRow>,
    /// The receipts that are held.
    receipts: [Option<Receipt>; RECEIPTS],
}

impl Held {
    /// What the Rust's link and its reporters hold.
    pub fn by_oracle(oracle: &Oracle) -> Held {
        let link = oracle.link.as_ref();
        let receipt =
            |reporter: &TxReporter| Receipt { mark: reporter.get_state(), expects_ack: reporter.is_acknowledged_service() };
        Held {
            started: link.map(|started| (started.llc.carrier(), started.t251, started.llc.time())),
            counts: link
                .map_or([0; 3], |Started { llc, .. }| [llc.messages().len(), llc.unacknowledged().len(), llc.due().len()]),
            rows: link.map_or(Vec::new(), |started| started.rows()),
            receipts: std::array::from_fn(|at| oracle.receipts[at].as_ref().map(receipt)),
        }
    }

    /// What the proved link holds.
    pub fn by_link(link: &Link) -> Held {
        let wipturay::TdmaTime { t, f, m, h } = link.time();
        let mut rows: Vec<_> = link.address_rows().collect();
        rows.sort_unstable_by_key(|row| row.ssi);
        Held {
            started: link.is_started().then(|| (link.main_carrier(), link.t251(), TdmaTime { t, f, m, h })),
            counts: [link.outbound_messages(), link.outbound_udata_messages(), link.scheduled_out_acks()],
            rows,
            receipts: std::array::from_fn(|at| {
                let receipt = link.receipt(at as u8)?;
                Some(Receipt { mark: mark(receipt.state), expects_ack: receipt.expects_ack })
            }),
        }
    }
}

/// The Rust's name of a mark.
fn mark(state: wipturay::TxState) -> TxState {
    match state {
        wipturay::TxState::Pending => TxState::Pending,
        wipturay::TxState::Discarded => TxState::Discarded,
        wipturay::TxState::Transmitted => TxState::Transmitted,
        wipturay::TxState::Lost => TxState::Lost,
        wipturay::TxState::Acknowledged => TxState::Acknowledged,
    }
}

impl fmt::Display for Held {
    fn fmt(&self, f: &mut fmt::Formatter<'_>) -> fmt::Result {
        match &self.started {
            Some((carrier, t251, TdmaTime { h, m, f: frame, t })) => {
                write!(f, "carrier {carrier:04x}, T251 {t251}, h {h} m {m} f {frame} t {t}")?
            }
            None => write!(f, "not started")?,
        }
        let [messages, unacknowledged, due] = self.counts;
        write!(f, "; {messages} acknowledged, {unacknowledged} unacknowledged, {due} due, {} rows", self.rows.len())?;
        for AddressRow { ssi, vs, last_ns } in &self.rows {
            write!(f, "; {ssi:06x} V(S) {}, ", *vs as u8)?;
            match last_ns {
                Some(ns) => write!(f, "last N(S) {}", *ns as u8)?,
                None => write!(f, "no last N(S)")?,
            }
        }
        for (number, receipt) in self.receipts.iter().enumerate() {
            if let Some(Receipt { mark, expects_ack }) = receipt {
                let expects = if *expects_ack { "expects" } else { "does not expect" };
                write!(f, "; receipt {number} {mark:?}, {expects} an acknowledgement")?;
            }
        }
        Ok(())
    }
}

// Included inside the module of llc_bs_ms.rs, whose fields are private: what the oracle looks at, and nothing that changes a link.
use super::{ExpectedInAck, Llc, ScheduledOutAck};
use std::collections::{HashMap, VecDeque};
use tetra_core::{TdmaTime, TxState};
use tetra_saps::SapMsg;

/// All that a link keeps, for a comparison of before and after.
#[derive(PartialEq)]
pub struct Picture {
    time: TdmaTime,
    due: Vec<(u32, u8, u16, u8)>,
    messages: Vec<(u32, u16, u8, Option<TdmaTime>, Option<TdmaTime>, u8, TxState)>,
    unacknowledged: usize,
    rows: HashMap<u32, u8>,
}

impl Llc {
    /// The main carrier.
    pub fn carrier(&self) -> u16 {
        self.main_carrier()
    }

    /// The time.
    pub fn time(&self) -> TdmaTime {
        self.dltime
    }

    /// The acknowledged messages, in the order of the queue.
    pub fn messages(&self) -> &VecDeque<ExpectedInAck> {
        &self.outbound_messages
    }

    /// The unacknowledged messages.
    pub fn unacknowledged(&self) -> &VecDeque<SapMsg> {
        &self.outbound_udata_messages
    }

    /// The acknowledgements due.
    pub fn due(&self) -> &VecDeque<ScheduledOutAck> {
        &self.scheduled_out_acks
    }

    /// The rows: the next N(S) of each SSI.
    pub fn rows(&self) -> &HashMap<u32, u8> {
        &self.link_send_seq
    }

    /// All that it keeps.
    pub fn picture(&self) -> Picture {
        Picture {
            time: self.dltime,
            due: self.scheduled_out_acks.iter().map(|a| (a.addr.ssi, a.nr, a.carrier_num, a.ts)).collect(),
            messages: self
                .outbound_messages
                .iter()
                .map(|m| {
                    let state = m.tx_reporter.get_state();
                    (m.addr.ssi, m.carrier_num, m.ns, m.t_submitted_to_umac, m.t_umac_done, m.retransmit_count, state)
                })
                .collect(),
            unacknowledged: self.outbound_udata_messages.len(),
            rows: self.link_send_seq.clone(),
        }
    }

    /// A copy to be thrown away, which shares the receipts.
    pub fn throw_away(&self) -> Llc {
        Llc {
            config: self.config.clone(),
            dltime: self.dltime,
            scheduled_out_acks: self
                .scheduled_out_acks
                .iter()
                .map(|a| ScheduledOutAck { addr: a.addr, t_start: a.t_start, nr: a.nr, carrier_num: a.carrier_num, ts: a.ts })
                .collect(),
            outbound_messages: self
                .outbound_messages
                .iter()
                .map(|m| ExpectedInAck {
                    carrier_num: m.carrier_num,
                    ts: m.ts,
                    addr: m.addr,
                    ns: m.ns,
                    bl_type: m.bl_type,
                    t_first: m.t_first,
                    t_submitted_to_umac: m.t_submitted_to_umac,
                    t_umac_done: m.t_umac_done,
                    tx_reporter: m.tx_reporter.clone(),
                    retransmission_buf: m.retransmission_buf.clone(),
                    retransmit_count: m.retransmit_count,
                })
                .collect(),
            outbound_udata_messages: self.outbound_udata_messages.clone(),
            link_send_seq: self.link_send_seq.clone(),
        }
    }
}

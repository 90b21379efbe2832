//! Traffic as slots go by: so many messages held, to so many addresses.
use crate::calls::{ack, frame, release, report, request, start, time};
use crate::scene::Scene;
use oracle::call::Call;
use oracle::hex_line::line_of;
use oracle::oracle::{Oracle, RECEIPTS};
use oracle::traffic::is_releasable;
use tetra_core::{TxReporter, TxState};
use tetra_entities::llc::llc_bs_ms::ExpectedInAck;
use tetra_saps::SapMsgInner;

/// Slots before the clock runs, and under it.
const BEFORE: usize = 100;
const TIMED: usize = 160;
/// T251, in slots.
const T251: u16 = 8;
/// Reports and frames in a slot, at most; releases and requests follow from them.
const EACH: usize = 2;
/// Lengths of SDUs, in turn.
const LENGTHS: [usize; 8] = [16, 40, 100, 200, 16, 40, 100, 2595];

/// Traffic that is being made, by what the Rust holds.
struct Traffic {
    oracle: Oracle,
    calls: Vec<Call>,
    /// How many requests and frames there were.
    requests: usize,
    frames: usize,
}

impl Traffic {
    /// One call more.
    fn call(&mut self, call: Call) {
        self.oracle.line(&line_of(&call.bytes()));
        self.calls.push(call);
    }

    /// The messages held, in the order of the queue.
    fn messages(&self) -> impl Iterator<Item = &ExpectedInAck> {
        self.oracle.link.iter().flat_map(|started| started.llc.messages())
    }

    /// The receipts of messages that were sent and not reported on, the first few.
    fn unreported(&self) -> Vec<u8> {
        let sent = |m: &&ExpectedInAck| m.t_submitted_to_umac.is_some() && m.tx_reporter.get_state() == TxState::Pending;
        let is_on = |at: u8, m: &ExpectedInAck| self.receipt(at).is_some_and(|held| held.is_same(&m.tx_reporter));
        self.messages().filter(sent).take(EACH).filter_map(|m| (0..RECEIPTS as u8).find(|&at| is_on(at, m))).collect()
    }

    /// A receipt, if a request holds it.
    fn receipt(&self, at: u8) -> Option<&TxReporter> {
        self.oracle.receipts[usize::from(at)].as_ref()
    }

    /// SSI and N(R) for messages that were transmitted, the first few. One in 16 is heard only when it is sent again.
    fn acknowledgements(&self) -> Vec<(u32, u8)> {
        let done = self.messages().filter(|m| m.t_umac_done.is_some() && m.tx_reporter.get_state() == TxState::Transmitted);
        let heard = done.filter(|m| m.retransmit_count > 0 || handle(m) % 16 != 0);
        heard.map(|m| (m.addr.ssi, m.ns)).take(EACH).collect()
    }

    /// The N(S) of the next frame from an address: a repeat would go up on one side alone.
    fn next_ns(&self, ssi: u32) -> u8 {
        let last = self.oracle.link.as_ref().and_then(|started| started.repeats.last(ssi)).and_then(|heard| heard.ns);
        last.map_or(0, |ns| ns ^ 1)
    }

    /// One slot.
    fn slot(&mut self, slot: usize, held: usize, addresses: usize) {
        self.call(time(slot as i32));
        for receipt in self.unreported() {
            self.call(report(receipt));
        }
        for (ssi, nr) in self.acknowledgements() {
            self.frames += 1;
            // One in four brings an SDU.
            let is_adata = self.frames % 4 == 0;
            let adata = || frame(ssi, u32::from(nr << 1 | self.next_ns(ssi)), 6, 40, false);
            self.call(if is_adata { adata() } else { ack(ssi, nr) });
        }
        for receipt in 0..RECEIPTS as u8 {
            if is_releasable(&self.oracle, receipt) {
                self.call(release(receipt));
            }
        }
        for receipt in 0..RECEIPTS as u8 {
            if self.receipt(receipt).is_none() && self.messages().count() < held {
                let ssi = 1000 + (self.requests % addresses) as u32;
                let mut request = request(ssi, receipt, LENGTHS[self.requests % LENGTHS.len()]);
                request.handle = self.requests as u32;
                self.requests += 1;
                self.call(Call::Data(request));
            }
        }
        assert_eq!(self.messages().count(), held);
        self.call(Call::TickEnd);
    }
}

/// The handle of the request for a message.
fn handle(message: &ExpectedInAck) -> u32 {
    match &message.retransmission_buf.msg {
        SapMsgInner::TmaUnitdataReq(down) => down.req_handle,
        _ => unreachable!(),
    }
}

/// The traffic of so many messages held, to so many addresses.
fn mix(held: usize, addresses: usize) -> Scene {
    let mut traffic = Traffic { oracle: Oracle::new(), calls: Vec::new(), requests: 0, frames: 0 };
    let mut scene = Scene::new("", T251);
    traffic.call(start(T251));
    traffic.calls.clear();
    let mut timed = 0;
    for slot in 0..BEFORE + TIMED {
        traffic.slot(slot, held, addresses);
        let calls = std::mem::take(&mut traffic.calls);
        if slot < BEFORE {
            scene = scene.then(calls);
        } else {
            timed += calls.len();
            scene = scene.timed(calls);
        }
    }
    scene.parts = TIMED;
    let calls = timed as f64 / TIMED as f64;
    scene.what = format!("held: {held}, addresses: {addresses} ({calls:.1} calls)");
    scene
}

/// All of them.
pub fn scenes() -> Vec<Scene> {
    let sizes = [1, 10, 64].into_iter().flat_map(|held| [1, 32, 140].map(|addresses| (held, addresses)));
    sizes.map(|(held, addresses)| mix(held, addresses)).collect()
}

//! The oracle: what document 01's questions let through goes to the Rust's own link, and what that gives comes back as records,
//! trimmed where it goes up with FCS, stopped where it repeats, and with the FCS behind it where it goes down with the FCS flag.
use crate::append::append;
use crate::call::Call;
use crate::caught::caught;
use crate::coverage::Coverage;
use crate::faults::{self, Fault};
use crate::header;
use crate::hex_line;
use crate::message;
use crate::record;
use crate::repeat_sight::RepeatSight;
use crate::repeats::{self, Repeats};
use crate::sight::{self, FrameSight, TickSight};
use crate::trim::trim;
use tetra_config::bluestation::SharedConfig;
use tetra_core::{TdmaTime, TxReporter};
use tetra_entities::llc::llc_bs_ms::{ExpectedInAck, Llc};
use tetra_entities::{MessageQueue, TetraEntityTrait};
use tetra_pdus::llc::consts::timers::set_sender_retry_timer;
use tetra_saps::{SapMsg, SapMsgInner};

/// Acknowledged messages that are held at most.
pub const MESSAGES: usize = 64;
/// Unacknowledged messages that are held at most.
pub const UNACKNOWLEDGED: usize = 32;
/// Acknowledgements that are due at most.
pub const DUE: usize = 64;
/// Receipts.
pub const RECEIPTS: usize = 128;
/// Rows.
pub const ROWS: usize = 256;

/// A call's number and records. A fault is a place where the Rust does not do what document 01 says of it.
#[derive(Default)]
pub struct Answer {
    pub number: u8,
    pub records: Vec<Vec<u8>>,
    pub fault: Option<String>,
}

/// A link that was started.
pub struct Started {
    pub llc: Llc,
    pub t251: u16,
    pub now: TdmaTime,
    pub repeats: Repeats,
}

/// The oracle's state: the Rust's link, and the receipts.
pub struct Oracle {
    pub link: Option<Started>,
    pub receipts: Vec<Option<TxReporter>>,
    pub coverage: Coverage,
    repeat_sight: RepeatSight,
    /// The last call's number.
    pub last: u8,
}

/// Does this message report on this receipt?
pub fn is_on(message: &SapMsg, receipt: &TxReporter) -> bool {
    let SapMsgInner::TmaUnitdataReq(down) = &message.msg else {
        return false;
    };
    down.tx_reporter.as_ref().is_some_and(|reporter| reporter.is_same(receipt))
}

/// Is this the message under way of this SSI?
pub fn is_under_way(message: &ExpectedInAck, ssi: u32) -> bool {
    message.addr.ssi == ssi && message.t_submitted_to_umac.is_some()
}

impl Oracle {
    /// A new one: not started, and empty.
    pub fn new() -> Oracle {
        let (coverage, repeat_sight) = (Coverage::default(), RepeatSight::default());
        Oracle { link: None, receipts: vec![None; RECEIPTS], coverage, repeat_sight, last: 0 }
    }

    /// The answer to a line of the runner's input.
    pub fn line(&mut self, line: &[u8]) -> Answer {
        let answer = match hex_line::bytes_of(line) {
            Some(bytes) => self.call(&bytes),
            None => {
                self.coverage.count("line that spells no bytes");
                Answer { number: 2, ..Answer::default() }
            }
        };
        self.last = answer.number;
        if self.link.is_none() {
            match answer.number {
                2 => self.coverage.count("2 before a start"),
                3 => self.coverage.count("3 before a start"),
                5 => self.coverage.count("5 before a start"),
                _ => {}
            }
        }
        self.coverage.count_number(answer.number);
        for record in &answer.records {
            self.coverage.count_kind(record[3]);
        }
        answer
    }

    /// The answer to the bytes of a call.
    fn call(&mut self, bytes: &[u8]) -> Answer {
        let mut answer = Answer::default();
        match Call::parse(bytes) {
            Err(number) => answer.number = number,
            Ok(call) => {
                answer.number = self.number(&call, &mut answer.fault);
                if let Some(started) = &self.link {
                    self.repeat_sight.before(started, &call, answer.number, &mut self.coverage);
                }
                if answer.number == 0 {
                    self.accept(&call, &mut answer);
                } else {
                    faults::refuse(self.link.as_mut(), &call, answer.number);
                }
            }
        }
        answer
    }

    /// Hands an accepted call to the Rust.
    fn accept(&mut self, call: &Call, answer: &mut Answer) {
        let mut queue = MessageQueue::new();
        let fed = match call {
            Call::Start { carrier, t251 } => {
                if self.link.is_some() {
                    self.coverage.count("start of a started link");
                }
                let kept = self.link.take().filter(|_| faults::is(Fault::KeptOverStart));
                let repeats = kept.map_or(Repeats::default(), |before| before.repeats);
                let llc = Llc::new(SharedConfig::new(*carrier));
                self.link = Some(Started { llc, t251: *t251, now: TdmaTime::default(), repeats });
                self.receipts = vec![None; RECEIPTS];
                Some(())
            }
            Call::TickStart { h, m, f, t } => {
                let started = self.link.as_mut().unwrap();
                started.now = TdmaTime { h: *h, m: *m, f: *f, t: *t };
                caught(|| started.llc.tick_start(&mut queue, started.now))
            }
            Call::TickEnd => {
                let started = self.link.as_mut().unwrap();
                set_sender_retry_timer(started.t251 as u32);
                let sight = TickSight::before(started, &mut self.coverage);
                let fed = caught(|| {
                    started.llc.tick_end(&mut queue, started.now);
                });
                if fed.is_some() {
                    sight.after(&started.llc, &mut self.coverage);
                }
                fed
            }
            Call::Data(request) => {
                let reporter = if request.is_acknowledged() { TxReporter::new() } else { TxReporter::new_unacked() };
                self.receipts[request.receipt as usize] = Some(reporter.clone());
                let llc = &mut self.link.as_mut().unwrap().llc;
                caught(|| llc.rx_prim(&mut queue, message::data(request, reporter)))
            }
            Call::Unitdata(request) => {
                let reporter = TxReporter::new_unacked();
                self.receipts[request.receipt as usize] = Some(reporter.clone());
                let llc = &mut self.link.as_mut().unwrap().llc;
                caught(|| llc.rx_prim(&mut queue, message::unitdata(request, reporter)))
            }
            Call::Frame(frame) => {
                let started = self.link.as_mut().unwrap();
                let sight = FrameSight::before(started, frame, &mut self.coverage);
                let frame = faults::fed(started, frame);
                let fed = caught(|| frame.iter().for_each(|frame| started.llc.rx_prim(&mut queue, message::frame(frame))));
                if fed.is_some() {
                    sight.after(&started.llc, &mut self.coverage);
                }
                fed
            }
            Call::Report { receipt, value } => {
                let reporter = self.receipts[*receipt as usize].as_ref().unwrap();
                caught(|| mark(reporter, *value))
            }
            Call::Release { receipt } => {
                self.receipts[*receipt as usize] = None;
                Some(())
            }
        };
        if fed.is_none() {
            answer.fault = Some("the Rust panics on a call that document 01 accepts".into());
        }
        if let Call::Data(request) = call {
            sight::request(&self.link.as_ref().unwrap().llc, request, &mut self.coverage);
        }
        let is_repeat = self.link.as_mut().unwrap().note(call);
        while let Some(given) = queue.pop_front() {
            let left = if is_repeat { repeats::stop(given) } else { Some(given) };
            match left.map_or(Ok(None), |given| self.record_of(given, call)) {
                Ok(Some(mut record)) => {
                    faults::spoil(&mut record, call, self.link.as_ref());
                    answer.records.push(record);
                }
                Ok(None) => {}
                Err(what) => answer.fault = Some(what),
            }
        }
    }

    /// The record of a message that the Rust gave for a call; nothing, if the message is dropped.
    fn record_of(&mut self, given: SapMsg, call: &Call) -> Result<Option<Vec<u8>>, String> {
        let left = match call {
            Call::Frame(frame) => trim(given, header::kind(&frame.bits), &mut self.coverage)?,
            _ => Some(given),
        };
        let started = self.link.as_ref().unwrap();
        let left = left.map(|message| append(message, started, &mut self.coverage)).transpose()?;
        let receipt_of = |reporter: &TxReporter| {
            let is_it = |held: &Option<TxReporter>| held.as_ref().is_some_and(|held| held.is_same(reporter));
            self.receipts.iter().position(is_it).map(|at| at as u8)
        };
        left.map(|message| record::of(&message, receipt_of)).transpose()
    }
}

/// A report.
pub fn mark(reporter: &TxReporter, value: u8) {
    if value == 1 {
        reporter.mark_transmitted();
    } else {
        reporter.mark_discarded();
    }
}

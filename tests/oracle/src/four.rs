//! What request P4 says, put to the Rust: an acknowledged message that leaves as Lost or Discarded has been handed down exactly
//! four times, each resend for a done time that is old enough or lies ahead. Read are the calls, the numbers, the records, the
//! marks and whether a message is held; sendings are counted and done times noted here.
use crate::call::Call;
use crate::coverage::Coverage;
use crate::hex_line::bytes_of;
use crate::oracle::{Oracle, RECEIPTS};
use tetra_core::TxState;

/// How often a message is handed down.
pub const SENDINGS: usize = 4;
/// W, the slots after which the time begins again.
pub const WRAP: i64 = 65_536 * 60 * 18 * 4;

/// What is seen of one call.
#[derive(Clone)]
pub struct Seen {
    /// The call, if the line spells one.
    pub call: Option<Call>,
    pub number: u8,
    pub records: Vec<Vec<u8>>,
    /// After the call, of each receipt that is held: its mark, and whether an acknowledged message with it is held.
    pub receipts: Vec<Option<(TxState, bool)>>,
}

impl Seen {
    /// What the oracle shows, which has answered a line.
    pub fn of(oracle: &Oracle, line: &[u8], number: u8, records: Vec<Vec<u8>>) -> Seen {
        let messages = || oracle.link.iter().flat_map(|started| started.llc.messages());
        let receipts = oracle.receipts.iter().map(|held| {
            let reporter = held.as_ref()?;
            Some((reporter.get_state(), messages().any(|message| message.tx_reporter.is_same(reporter))))
        });
        let call = bytes_of(line).and_then(|bytes| Call::parse(&bytes).ok());
        Seen { call, number, records, receipts: receipts.collect() }
    }

    /// Is it an accepted tick end?
    pub fn is_tick_end(&self) -> bool {
        self.number == 0 && matches!(self.call, Some(Call::TickEnd))
    }
}

/// The receipt in the record of an acknowledged message; nothing for another record.
pub fn receipt_in(record: &[u8]) -> Option<u8> {
    let mut rest = record.strip_prefix(&[1, 0, 1, 1])?;
    while let [tag, high, low, value @ ..] = rest {
        if *tag == 0x0a {
            return value.first().copied();
        }
        rest = value.get(u16::from_be_bytes([*high, *low]) as usize..)?;
    }
    None
}

/// The wrapped difference of two slots.
fn difference(now: i64, before: i64) -> i64 {
    (now - before + WRAP / 2).rem_euclid(WRAP) - WRAP / 2
}

/// A request on the acknowledged path that holds its receipt.
#[derive(Default)]
struct Order {
    /// The record that handed it down first.
    record: Vec<u8>,
    sendings: usize,
    /// The reports, and how many of them came since the last record.
    reports: Vec<u8>,
    since: usize,
    /// The slot of the first tick end after a report, if that came since the last record.
    done: Option<i64>,
    has_left: bool,
}

impl Order {
    /// The age at which it is sent again or leaves, if it has a reason to.
    fn age(&self, now: i64, t251: u16) -> Result<i64, String> {
        if self.since != 1 {
            return Err(format!("{} reports since sending {}", self.since, self.sendings));
        }
        let age = difference(now, self.done.ok_or("no tick end between its report and this one")?);
        if (0..t251.into()).contains(&age) { Err(format!("its done time is {age} slots old, T251 is {t251}")) } else { Ok(age) }
    }

    /// It is handed down in a tick end.
    fn hand_down(&mut self, record: &[u8], now: i64, t251: u16, coverage: &mut Coverage) -> Result<(), String> {
        if self.sendings == SENDINGS {
            return Err("it is handed down a fifth time".into());
        }
        if self.sendings == 0 {
            self.record = record.to_vec();
        } else {
            count_age(self.age(now, t251)?, now, RESENDS, coverage);
            if self.record != record {
                return Err("it is sent again with other bytes".into());
            }
        }
        self.sendings += 1;
        (self.since, self.done) = (0, None);
        Ok(())
    }

    /// Its message is not held, and its receipt has a mark; in a tick end, if this is one.
    fn gone(&mut self, mark: TxState, tick_end: Option<i64>, t251: u16, coverage: &mut Coverage) -> Result<(), String> {
        let is_first = !std::mem::replace(&mut self.has_left, true);
        let told = if self.reports.last() == Some(&1) { TxState::Lost } else { TxState::Discarded };
        if mark != TxState::Acknowledged {
            if mark != told {
                return Err(format!("it left as {mark:?}, by its last report it is {told:?}"));
            }
            if self.sendings != SENDINGS {
                return Err(format!("it left as {mark:?} after {} sendings", self.sendings));
            }
            if is_first {
                let now = tick_end.ok_or("it left in another call than a tick end")?;
                count_age(self.age(now, t251)?, now, LEAVINGS, coverage);
            }
        }
        if is_first {
            self.count_end(mark, coverage);
        }
        Ok(())
    }

    /// Counts how it ended.
    fn count_end(&self, mark: TxState, coverage: &mut Coverage) {
        let is_mixed = self.reports.iter().any(|report| Some(report) != self.reports.last());
        coverage.count(match (mark, is_mixed) {
            (TxState::Lost, false) => "Lost after four sendings transmitted",
            (TxState::Lost, true) => "Lost with a sending discarded",
            (TxState::Discarded, false) => "Discarded after four sendings discarded",
            (TxState::Discarded, true) => "Discarded with a sending transmitted",
            _ if self.sendings == SENDINGS => "Acknowledged after four sendings",
            _ => "Acknowledged after fewer sendings",
        });
    }
}

/// What a resend and a leaving count as: T251 or more slots after the done time, before it, with the time begun again in between.
const RESENDS: [&str; 3] = ["resend at T251 or later", "resend before its done time", "resend across the wrap"];
const LEAVINGS: [&str; 3] = ["leaving at T251 or later", "leaving before its done time", "leaving across the wrap"];

/// Counts an age at a time by these names.
fn count_age(age: i64, now: i64, [old, ahead, wrapped]: [&'static str; 3], coverage: &mut Coverage) {
    coverage.count(if age < 0 { ahead } else { old });
    if !(0..WRAP).contains(&(now - age)) {
        coverage.count(wrapped);
    }
}

/// The orders of a run, by receipt, with the time and T251 of its calls.
pub struct Four {
    orders: [Option<Order>; RECEIPTS],
    now: i64,
    t251: u16,
}

impl Four {
    /// Before the first call.
    pub fn new() -> Four {
        Four { orders: [const { None }; RECEIPTS], now: 0, t251: 0 }
    }

    /// Takes note of a call, and says where P4 does not hold.
    pub fn see(&mut self, seen: &Seen, coverage: &mut Coverage) -> Result<(), String> {
        if seen.number == 0 {
            self.accepted(seen, coverage);
        }
        let tick_end = seen.is_tick_end().then_some(self.now);
        for record in &seen.records {
            let Some(at) = receipt_in(record) else {
                continue;
            };
            let now = tick_end.ok_or("P4: a message is handed down in another call than a tick end")?;
            let order = self.orders[at as usize].as_mut().ok_or("P4: a message without a request is handed down")?;
            order.hand_down(record, now, self.t251, coverage).map_err(|what| format!("P4: receipt {at}: {what}"))?;
        }
        for (at, order) in self.orders.iter_mut().enumerate() {
            let Some(order) = order else {
                continue;
            };
            let (mark, is_held) = seen.receipts[at].ok_or("P4: a receipt is free, and its request holds it")?;
            if !is_held {
                order.gone(mark, tick_end, self.t251, coverage).map_err(|what| format!("P4: receipt {at}: {what}"))?;
            }
            if order.since > 0 && order.done.is_none() {
                order.done = tick_end;
            }
        }
        Ok(())
    }

    /// Takes note of what an accepted call says.
    fn accepted(&mut self, seen: &Seen, coverage: &mut Coverage) {
        match seen.call {
            Some(Call::Start { t251, .. }) => {
                if self.orders.iter().flatten().any(|order| order.sendings > 0 && !order.has_left) {
                    coverage.count("under way at a start");
                }
                *self = Four { t251, ..Four::new() };
            }
            Some(Call::TickStart { h, m, f, t }) => {
                let [m, f, t] = [m, f, t].map(|part| i64::from(part) - 1);
                self.now = ((i64::from(h) * 60 + m) * 18 + f) * 4 + t;
            }
            Some(Call::Data(ref request)) if request.is_acknowledged() => {
                self.orders[request.receipt as usize] = Some(Order::default());
            }
            Some(Call::Report { receipt, value }) => {
                if let Some(order) = &mut self.orders[receipt as usize] {
                    order.reports.push(value);
                    order.since += 1;
                }
            }
            Some(Call::Release { receipt }) => self.orders[receipt as usize] = None,
            _ => {}
        }
    }
}

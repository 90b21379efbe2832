//! Faults that are put into what is seen of an order that ends Lost or Discarded, to see that `four.rs` notices each of them.
use crate::call::Call;
use crate::coverage::Coverage;
use crate::four::{Four, SENDINGS, Seen, receipt_in};
use crate::oracle::Oracle;
use tetra_core::TxState;

/// One fault, of a sending by its number.
#[derive(Clone, Copy, Debug)]
enum Spoilt {
    /// It is missing.
    Dropped(usize),
    /// It stands twice in its tick end.
    Doubled(usize),
    /// It comes once more in the next tick end.
    Again(usize),
    /// Its last byte is another.
    Changed(usize),
    /// It comes in the tick end before; the one behind the last is the leaving.
    Early(usize),
    /// Its report is refused.
    Unreported(usize),
    /// It is reported twice.
    ReportedTwice(usize),
    /// Its report comes just before the tick end in which the next one goes out, or the message leaves.
    ReportedLate(usize),
    /// The message leaves at once, with the mark that it has.
    Gone(usize),
    /// It is the last one: where the next has to go out, the message leaves with its last mark.
    Last(usize),
    /// Lost reads Discarded, and Discarded reads Lost.
    OtherMark,
    /// The message leaves with this mark.
    LeftAs(TxState),
}

/// Every fault.
fn all() -> Vec<Spoilt> {
    let of_each = [Spoilt::Dropped, Spoilt::Doubled, Spoilt::Again, Spoilt::Changed, Spoilt::Unreported, Spoilt::ReportedTwice];
    let of_each = of_each.into_iter().chain([Spoilt::ReportedLate, Spoilt::Gone]);
    let mut all: Vec<Spoilt> = of_each.flat_map(|fault| (1..=SENDINGS).map(fault)).collect();
    all.extend((2..=SENDINGS + 1).map(Spoilt::Early));
    all.extend((1..SENDINGS).map(Spoilt::Last));
    all.extend([Spoilt::OtherMark, Spoilt::LeftAs(TxState::Pending), Spoilt::LeftAs(TxState::Transmitted)]);
    all
}

/// An order that ends Lost or Discarded: what is seen from the start before it on, as long as it holds its receipt, and the
/// places in it where the message is handed down, reported and gone.
#[derive(Clone)]
struct Way {
    seen: Vec<Seen>,
    receipt: u8,
    record: Vec<u8>,
    /// Behind the sendings the leaving.
    places: Vec<usize>,
    reports: Vec<usize>,
    mark: TxState,
}

impl Way {
    /// The way of a request, in what is seen since a start; nothing, if its message does not end Lost or Discarded.
    fn of(run: &[Seen], request: usize, receipt: u8) -> Option<Way> {
        let is_release = |seen: &Seen| matches!(seen.call, Some(Call::Release { receipt: of }) if of == receipt);
        let is_report = |seen: &Seen| matches!(seen.call, Some(Call::Report { receipt: of, .. }) if of == receipt);
        let is_own = |record: &&Vec<u8>| receipt_in(record) == Some(receipt);
        let end = (request..run.len()).find(|&at| run[at].number == 0 && is_release(&run[at])).unwrap_or(run.len());
        let mark_at = |at: usize| run[at].receipts[receipt as usize].filter(|(_, is_held)| !is_held).map(|(mark, _)| mark);
        let left = (request..end).find(|&at| mark_at(at).is_some())?;
        let mark = mark_at(left).filter(|mark| [TxState::Lost, TxState::Discarded].contains(mark))?;
        let sent = (request..end).filter(|&at| run[at].records.iter().any(|record| is_own(&record)));
        Some(Way {
            seen: run[..end].to_vec(),
            receipt,
            record: run.iter().take(end).skip(request).flat_map(|seen| &seen.records).find(is_own)?.clone(),
            places: sent.chain([left]).collect(),
            reports: (request..end).filter(|&at| run[at].number == 0 && is_report(&run[at])).collect(),
            mark,
        })
    }

    /// Where the sending with a number goes out; the one behind the last is the leaving.
    fn place(&self, number: usize) -> usize {
        self.places[number - 1]
    }

    /// Takes the order's record out of a call.
    fn take(&mut self, at: usize) {
        self.seen[at].records.retain(|record| receipt_in(record) != Some(self.receipt));
    }

    /// Puts the order's record into a call.
    fn put(&mut self, at: usize) {
        self.seen[at].records.push(self.record.clone());
    }

    /// The message is gone from a call on, with a mark.
    fn leave(&mut self, from: usize, mark: TxState) {
        self.seen[from..].iter_mut().for_each(|seen| seen.receipts[self.receipt as usize] = Some((mark, false)));
    }

    /// With a fault put in; nothing, if it finds no place.
    fn spoilt(mut self, fault: Spoilt) -> Option<Way> {
        match fault {
            Spoilt::Dropped(number) => self.take(self.place(number)),
            Spoilt::Doubled(number) => self.put(self.place(number)),
            Spoilt::Again(number) => {
                let next = (self.place(number) + 1..self.seen.len()).find(|&at| self.seen[at].is_tick_end())?;
                self.put(next);
            }
            Spoilt::Changed(number) => {
                self.take(self.place(number));
                *self.record.last_mut()? ^= 1;
                self.put(self.place(number));
            }
            Spoilt::Early(number) => {
                let before = (0..self.place(number)).rfind(|&at| self.seen[at].is_tick_end())?;
                if number > SENDINGS {
                    self.leave(before, self.mark);
                } else {
                    self.take(self.place(number));
                    self.put(before);
                }
            }
            Spoilt::Unreported(number) => self.seen[self.reports[number - 1]].number = 15,
            Spoilt::ReportedTwice(number) => {
                let at = self.reports[number - 1];
                self.seen.insert(at, self.seen[at].clone());
            }
            Spoilt::ReportedLate(number) => {
                let report = self.seen.remove(self.reports[number - 1]);
                self.seen.insert(self.place(number + 1) - 1, report);
            }
            Spoilt::Gone(number) => {
                let at = self.place(number);
                self.seen[at].receipts[self.receipt as usize].as_mut()?.1 = false;
            }
            Spoilt::Last(number) => {
                (number + 1..=SENDINGS).for_each(|later| self.take(self.place(later)));
                self.leave(self.place(number + 1), self.mark);
            }
            Spoilt::OtherMark => {
                let other = if self.mark == TxState::Lost { TxState::Discarded } else { TxState::Lost };
                self.leave(self.place(SENDINGS + 1), other);
            }
            Spoilt::LeftAs(mark) => self.leave(self.place(SENDINGS + 1), mark),
        }
        Some(self)
    }

    /// Does P4 hold of what is seen?
    fn holds(&self) -> bool {
        let (mut four, mut coverage) = (Four::new(), Coverage::default());
        self.seen.iter().all(|seen| four.see(seen, &mut coverage).is_ok())
    }
}

/// The ways in a list of lines.
fn ways(lines: &[Vec<u8>]) -> Vec<Way> {
    let mut oracle = Oracle::new();
    let seen = lines.iter().map(|line| {
        let answer = oracle.line(line);
        Seen::of(&oracle, line, answer.number, answer.records)
    });
    let seen: Vec<Seen> = seen.collect();
    let is_start = |seen: &Seen| seen.number == 0 && matches!(seen.call, Some(Call::Start { .. }));
    let starts: Vec<usize> = (0..seen.len()).filter(|&at| is_start(&seen[at])).collect();
    let mut ways = Vec::new();
    for (place, &start) in starts.iter().enumerate() {
        let run = &seen[start..starts.get(place + 1).copied().unwrap_or(seen.len())];
        for (at, seen) in run.iter().enumerate().filter(|(_, seen)| seen.number == 0) {
            if let Some(Call::Data(request)) = &seen.call
                && request.is_acknowledged()
            {
                ways.extend(Way::of(run, at, request.receipt));
            }
        }
    }
    ways
}

/// Prints whether each fault is noticed in each order of a list that ends Lost or Discarded. Is it?
pub fn print_noticed(lines: &[Vec<u8>]) -> bool {
    let (all, ways) = (all(), ways(lines));
    let is_noticed = |fault: &Spoilt| ways.iter().all(|way| way.clone().spoilt(*fault).is_some_and(|spoilt| !spoilt.holds()));
    let missed: Vec<String> = all.iter().filter(|fault| !is_noticed(fault)).map(|fault| format!("{fault:?}")).collect();
    let (orders, faults, holds) = (ways.len(), all.len(), ways.iter().all(Way::holds));
    let is_right = orders > 0 && holds && missed.is_empty();
    if is_right {
        println!("ok: P4 holds of {orders} orders that end Lost or Discarded, and of none of them with any of {faults} faults");
    } else {
        println!("FAILED: P4 holds of {orders} orders: {holds}; faults that are not noticed in each: {}", missed.join(", "));
    }
    is_right
}

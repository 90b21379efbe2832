//! Repeats stop at the link, which the Rust sends up again. What request P2 adds to the Rust's rows is kept here, by the frames
//! that were accepted since the start: the last N(S) from each SSI.
use crate::call::{Call, Frame};
use crate::faults::{self, Fault};
use crate::header::{self, Header};
use crate::oracle::{ROWS, Started};
use std::collections::HashMap;
use tetra_saps::{SapMsg, SapMsgInner};
use wipturay::AddressRow;

/// The last frame with an N(S) that was accepted from an SSI.
pub struct Heard {
    /// Its N(S). Only a fault leaves none.
    pub ns: Option<u8>,
    /// The frame.
    pub frame: Frame,
    /// Did a frame make the row of the SSI?
    pub has_made_row: bool,
}

/// What was accepted since the start.
#[derive(Default)]
pub struct Repeats {
    /// By SSI.
    pub heard: HashMap<u32, Heard>,
    /// The SSI of the last frame of all.
    latest: u32,
}

impl Repeats {
    /// The last frame with an N(S) from an SSI, if there was one.
    pub fn last(&self, ssi: u32) -> Option<&Heard> {
        self.heard.get(if faults::is(Fault::LastShared) { &self.latest } else { &ssi })
    }

    /// By a fault, forgets last N(S)s at an accepted call: that of its SSI, or all.
    fn forget(&mut self, call: &Call, is_repeat: bool) {
        let (name, ssi) = match call {
            Call::Start { .. } => return,
            Call::TickStart { .. } => ("tick start", None),
            Call::TickEnd => ("tick end", None),
            Call::Data(request) => ("data request", Some(request.ssi)),
            Call::Unitdata(request) => ("unitdata request", Some(request.ssi)),
            Call::Frame(frame) if is_repeat => ("repeat", Some(frame.ssi)),
            Call::Frame(frame) => {
                (["BL-ADATA", "BL-DATA", "BL-UDATA", "BL-ACK"][header::kind(&frame.bits) as usize], Some(frame.ssi))
            }
            Call::Report { .. } => ("report", None),
            Call::Release { .. } => ("release", None),
        };
        if faults::is(Fault::ForgottenBy(name)) {
            let is_forgotten = |of: u32| ssi.is_none_or(|ssi| ssi == of);
            self.heard.iter_mut().filter(|(ssi, _)| is_forgotten(**ssi)).for_each(|(_, heard)| heard.ns = None);
        }
    }
}

impl Started {
    /// Has an SSI a row: one that a request made, which the Rust has, or one that a frame made?
    pub fn has_row(&self, ssi: u32) -> bool {
        self.llc.rows().contains_key(&ssi) || self.repeats.heard.contains_key(&ssi)
    }

    /// The SSIs whose row the Rust does not have.
    fn heard_alone(&self) -> impl Iterator<Item = (&u32, &Heard)> {
        self.repeats.heard.iter().filter(|(ssi, _)| !self.llc.rows().contains_key(ssi))
    }

    /// How many rows there are.
    pub fn row_count(&self) -> usize {
        self.llc.rows().len() + self.heard_alone().count()
    }

    /// Question 7 of a call with a tag: has its SSI a row, or is a row free?
    pub fn has_room(&self, tag: u8, ssi: u32) -> bool {
        if faults::is(Fault::OwnRowsAlone(tag)) {
            let count = if tag == 0x26 { self.repeats.heard.len() } else { self.llc.rows().len() };
            return self.has_row(ssi) || count < ROWS;
        }
        self.has_row(ssi) || self.row_count() < ROWS
    }

    /// The rows in the order of their SSIs; one that a frame made has a send bit of 0.
    pub fn rows(&self) -> Vec<AddressRow> {
        let last_ns = |ssi| self.repeats.heard.get(ssi).and_then(|heard| heard.ns).map(|ns| ns == 1);
        let asked = self.llc.rows().iter().map(|(ssi, vs)| (ssi, *vs == 1));
        let heard = self.heard_alone().map(|(ssi, _)| (ssi, false));
        let mut rows: Vec<_> = asked.chain(heard).map(|(ssi, vs)| AddressRow { ssi: *ssi, vs, last_ns: last_ns(ssi) }).collect();
        rows.sort_unstable_by_key(|row| row.ssi);
        rows
    }

    /// Is a frame a repeat: is its N(S) the last one that was accepted from its SSI?
    pub fn is_repeat(&self, frame: &Frame, header: &Header) -> bool {
        let Some(ns) = header.ns else {
            return false;
        };
        match self.repeats.last(frame.ssi) {
            Some(last) => (last.ns == Some(ns) || faults::is(Fault::AnyIsRepeat)) && faults::is_same(&last.frame, frame),
            None => faults::is(Fault::NoneIs(ns, self.llc.rows().contains_key(&frame.ssi))),
        }
    }

    /// Takes note of a frame with an N(S), which is now the last one from its SSI.
    pub fn hear(&mut self, frame: &Frame, ns: Option<u8>) {
        let heard = self.repeats.heard.get(&frame.ssi);
        let has_made_row = heard.map_or(!self.llc.rows().contains_key(&frame.ssi), |heard| heard.has_made_row);
        if heard.is_none() || !faults::is(Fault::FirstStays) {
            self.repeats.heard.insert(frame.ssi, Heard { ns, frame: frame.clone(), has_made_row });
        }
        self.repeats.latest = frame.ssi;
    }

    /// Takes note of an accepted call: was it a repeat?
    pub fn note(&mut self, call: &Call) -> bool {
        let mut is_repeat = false;
        if let Call::Frame(frame) = call
            && let Ok(header) = header::read(&frame.bits, frame.bit_count as usize)
        {
            is_repeat = self.is_repeat(frame, &header);
            let is_made = faults::is(Fault::RowBy(header::kind(&frame.bits))) && !self.has_row(frame.ssi);
            if header.ns.is_some() || is_made {
                self.hear(frame, header.ns);
            }
        }
        self.repeats.forget(call, is_repeat);
        is_repeat
    }
}

/// What is left of a message that the Rust gave for a repeat: of what goes up, nothing.
pub fn stop(message: SapMsg) -> Option<SapMsg> {
    let is_up = matches!(message.msg, SapMsgInner::TlaTlDataIndBl(_) | SapMsgInner::TlaTlUnitdataIndBl(_));
    (!is_up || faults::is(Fault::RepeatUp)).then_some(message)
}

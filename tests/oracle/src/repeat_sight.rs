//! What comes of repeats and of rows, for the coverage.
use crate::call::{Call, Frame, Request};
use crate::coverage::Coverage;
use crate::header::{self, Header};
use crate::oracle::{ROWS, Started};
use std::collections::HashMap;

/// What came of an SSI since the last frame with an N(S) that was accepted from it.
#[derive(Default)]
struct Since {
    /// Was that one a repeat?
    is_repeat: bool,
    has_udata: bool,
    has_ack: bool,
    has_request: bool,
    /// The number and the N(S) of a frame that was refused, and was no repeat.
    refused: Option<(u8, u8)>,
}

/// What came before a call.
#[derive(Default)]
pub struct RepeatSight {
    since: HashMap<u32, Since>,
    /// The last N(S) of each SSI before the last start of a started link.
    before_start: HashMap<u32, u8>,
}

impl RepeatSight {
    /// Looks at a call and its number, before it is done.
    pub fn before(&mut self, started: &Started, call: &Call, number: u8, coverage: &mut Coverage) {
        match (call, number) {
            (Call::Start { .. }, 0) => {
                self.since.clear();
                self.before_start = started.repeats.heard.iter().filter_map(|(ssi, heard)| Some((*ssi, heard.ns?))).collect();
            }
            (Call::Data(request), 0) if request.is_acknowledged() => self.request(started, request, coverage),
            (Call::Data(_), 7) => coverage.count("7 of a request"),
            (Call::Frame(frame), _) => {
                if let Ok(header) = header::read(&frame.bits, frame.bit_count as usize) {
                    self.frame(started, frame, &header, number, coverage);
                }
            }
            _ => {}
        }
    }

    /// Looks at an accepted request on the acknowledged path.
    fn request(&mut self, started: &Started, request: &Request, coverage: &mut Coverage) {
        self.since.entry(request.ssi).or_default().has_request = true;
        let is_first = !started.llc.rows().contains_key(&request.ssi);
        if is_first && started.repeats.heard.contains_key(&request.ssi) {
            coverage.count("request to a row that a frame made");
        }
        count_full(started, request.ssi, false, coverage);
    }

    /// Looks at a frame with a right header.
    fn frame(&mut self, started: &Started, frame: &Frame, header: &Header, number: u8, coverage: &mut Coverage) {
        let is_repeat = started.is_repeat(frame, header);
        let since = self.since.entry(frame.ssi).or_default();
        match (header.ns, number) {
            (Some(ns), 0) => {
                let since = std::mem::replace(since, Since { is_repeat, ..Since::default() });
                if is_repeat {
                    count_repeat(started, frame, header, &since, coverage);
                } else {
                    self.up(started, frame, ns, &since, coverage);
                }
                if started.row_count() == ROWS {
                    coverage.count("N(S) with every row taken");
                }
                count_full(started, frame.ssi, true, coverage);
            }
            (Some(_), 7) => coverage.count("7 of a frame"),
            (Some(_), 13) if is_repeat => coverage.count("13 of a repeat"),
            (Some(_), 14) if is_repeat => coverage.count("14 of a repeat"),
            (Some(ns), _) => {
                since.refused = Some((number, ns));
                if number == 13 && !started.has_row(frame.ssi) {
                    coverage.count("13 without a row");
                }
            }
            (None, 0) => {
                let is_ack = header.nr.is_some();
                if is_ack {
                    since.has_ack = true;
                } else {
                    since.has_udata = true;
                }
                if !started.has_room(0x26, frame.ssi) {
                    coverage.count(if is_ack { "BL-ACK without a row" } else { "BL-UDATA without a row" });
                }
            }
            (None, _) => {}
        }
    }

    /// Looks at a frame with an N(S) that is no repeat.
    fn up(&mut self, started: &Started, frame: &Frame, ns: u8, since: &Since, coverage: &mut Coverage) {
        let names = match (started.repeats.heard.contains_key(&frame.ssi), started.has_row(frame.ssi)) {
            (true, _) => ["N(S) 0 behind N(S) 1", "N(S) 1 behind N(S) 0"],
            (_, true) => ["first N(S) 0 in a request's row", "first N(S) 1 in a request's row"],
            _ => ["row made by N(S) 0", "row made by N(S) 1"],
        };
        coverage.count(names[ns as usize]);
        if !started.has_row(frame.ssi) && frame.kind == 2 {
            coverage.count("row made by a group frame");
        }
        if self.before_start.remove(&frame.ssi) == Some(ns) {
            coverage.count("up with the last N(S) before a start");
        }
        match since.refused {
            Some((13, refused)) if refused == ns => coverage.count("up with an N(S) that 13 refused"),
            Some((14, refused)) if refused == ns => coverage.count("up with an N(S) that 14 refused"),
            _ => {}
        }
    }
}

/// Counts what a repeat has in common with the frame before it, what came between, and what it has behind its header.
fn count_repeat(started: &Started, frame: &Frame, header: &Header, since: &Since, coverage: &mut Coverage) {
    let Some(last) = started.repeats.last(frame.ssi).map(|heard| &heard.frame) else {
        return;
    };
    let kinds = (header::kind(&last.bits), header::kind(&frame.bits));
    let behind = frame.bit_count as usize - header.len;
    let matters = [
        (header.ns == Some(0), "repeat of N(S) 0"),
        (header.ns == Some(1), "repeat of N(S) 1"),
        (kinds == (0, 0), "BL-ADATA repeated as BL-ADATA"),
        (kinds == (0, 1), "BL-ADATA repeated as BL-DATA"),
        (kinds == (1, 0), "BL-DATA repeated as BL-ADATA"),
        (kinds == (1, 1), "BL-DATA repeated as BL-DATA"),
        (last.bits == frame.bits, "repeat with the same bits"),
        (last.bits != frame.bits && last.bits[0] == frame.bits[0], "repeat with other bits behind its header"),
        (last.carrier != frame.carrier, "repeat on another carrier"),
        (last.kind != frame.kind, "repeat with another type"),
        (header.has_fcs, "repeat with FCS"),
        (header.has_fcs && behind == 32, "repeat emptied"),
        (behind == 0, "repeat without an SDU"),
        (since.is_repeat, "repeat behind a repeat"),
        (since.has_udata, "repeat behind a BL-UDATA"),
        (since.has_ack, "repeat behind a BL-ACK"),
        (since.has_request, "repeat behind a request"),
    ];
    matters.into_iter().filter(|(comes, _)| *comes).for_each(|(_, what)| coverage.count(what));
}

/// Counts the call that takes the last row, by what made the rows.
fn count_full(started: &Started, ssi: u32, is_frame: bool, coverage: &mut Coverage) {
    if started.has_row(ssi) || started.row_count() + 1 != ROWS {
        return;
    }
    let by_frames = started.repeats.heard.values().filter(|heard| heard.has_made_row).count() + is_frame as usize;
    coverage.count(match by_frames {
        0 => "256 rows by requests",
        ROWS => "256 rows by frames",
        _ => "256 rows by both",
    });
}

//! How often what came.
use std::collections::BTreeMap;

/// What has to come at least once in a run of the tests.
pub const WANTED: &[&str] = &[
    "number 0",
    "number 2",
    "number 3",
    "number 4",
    "number 5",
    "number 6",
    "number 7",
    "number 8",
    "number 9",
    "number 10",
    "number 11",
    "number 12",
    "number 13",
    "number 14",
    "number 15",
    "number 16",
    "kind 1",
    "kind 2",
    "kind 3",
    "kind 4",
    "kind 5",
    "64 messages held",
    "8 with 64 messages",
    "8 with 32 messages",
    "2 before a start",
    "3 before a start",
    "5 before a start",
    "5 with a taken receipt",
    "6 with a full queue",
    "7 with 64 messages",
    "12 with 64 due",
    "13 where N(R) meets a discarded message",
    "SDU of 2,595 bits",
    "SDU of 2,596 bits",
    "frame of 2,633 bits",
    "frame of 2,634 bits",
    "frame of 2,633 bits with FCS",
    "FCS right",
    "BL-ADATA trimmed",
    "BL-DATA trimmed",
    "BL-UDATA trimmed",
    "BL-ACK trimmed",
    "BL-ADATA emptied",
    "BL-DATA emptied",
    "BL-UDATA emptied",
    "BL-ACK emptied and dropped",
    "trimmed to 1 bit",
    "trimmed to 7 bits",
    "trimmed to 8 bits",
    "trimmed to 9 bits",
    "trimmed to 2,595 bits",
    "FCS appended to BL-ADATA",
    "FCS appended to BL-DATA",
    "FCS appended to BL-ACK",
    "FCS appended to an empty SDU",
    "FCS appended to a BL-ACK without SDU",
    "FCS appended to 1 to 31 bits",
    "FCS appended to 32 bits",
    "FCS appended to 2,595 bits",
    "frame of 2,633 bits handed down",
    "resent with FCS",
    "resent with the FCS of an empty SDU",
    "FCS asked for in a BL-UDATA",
    "FCS asked for in a unitdata request",
    "reply to a frame with FCS",
    "BL-ACK on a request",
    "BL-ADATA on a request",
    "BL-DATA on a request",
    "BL-UDATA on a data request",
    "N(R) before the tick end",
    "N(R) on another carrier",
    "N(R) that does not fit",
    "N(R) with nothing under way",
    "acknowledged",
    "acknowledged by a group frame",
    "age T251",
    "age T251 - 1",
    "age -1",
    "age -W/2",
    "first sending",
    "gone discarded",
    "gone, and the next sent in the same tick end",
    "line that spells no bytes",
    "lost",
    "moved to the front",
    "released acknowledged",
    "released discarded",
    "released lost",
    "released transmitted",
    "reply that steals",
    "reply that does not steal",
    "report on a waiting message",
    "resend",
    "resends to several addresses in one tick end",
    "start of a started link",
    "the Rust panicked for 14",
    "the Rust panicked for 15",
    "the Rust returned silently",
    "repeat of N(S) 0",
    "repeat of N(S) 1",
    "BL-ADATA repeated as BL-ADATA",
    "BL-ADATA repeated as BL-DATA",
    "BL-DATA repeated as BL-ADATA",
    "BL-DATA repeated as BL-DATA",
    "repeat with the same bits",
    "repeat with other bits behind its header",
    "repeat on another carrier",
    "repeat with another type",
    "repeat with FCS",
    "repeat emptied",
    "repeat without an SDU",
    "repeat behind a repeat",
    "repeat behind a BL-UDATA",
    "repeat behind a BL-ACK",
    "repeat behind a request",
    "repeat that acknowledges",
    "repeat that moves to the front",
    "repeat with nothing under way",
    "13 of a repeat",
    "14 of a repeat",
    "13 without a row",
    "N(S) 0 behind N(S) 1",
    "N(S) 1 behind N(S) 0",
    "first N(S) 0 in a request's row",
    "first N(S) 1 in a request's row",
    "row made by N(S) 0",
    "row made by N(S) 1",
    "row made by a group frame",
    "request to a row that a frame made",
    "up with an N(S) that 13 refused",
    "up with an N(S) that 14 refused",
    "up with the last N(S) before a start",
    "256 rows by frames",
    "256 rows by requests",
    "256 rows by both",
    "7 of a frame",
    "7 of a request",
    "7 with 64 due",
    "12 with every row taken",
    "N(S) with every row taken",
    "BL-UDATA without a row",
    "BL-ACK without a row",
    "Lost after four sendings transmitted",
    "Lost with a sending discarded",
    "Discarded after four sendings discarded",
    "Discarded with a sending transmitted",
    "Acknowledged after four sendings",
    "Acknowledged after fewer sendings",
    "under way at a start",
    "resend at T251 or later",
    "resend before its done time",
    "resend across the wrap",
    "leaving at T251 or later",
    "leaving before its done time",
    "leaving across the wrap",
];

/// Counts by name.
#[derive(Default, Clone)]
pub struct Coverage {
    counts: BTreeMap<&'static str, u64>,
}

impl Coverage {
    /// It came once more.
    pub fn count(&mut self, what: &'static str) {
        *self.counts.entry(what).or_insert(0) += 1;
    }

    /// A number came.
    pub fn count_number(&mut self, number: u8) {
        self.count(if number == 0 { WANTED[0] } else { WANTED[number as usize - 1] });
    }

    /// A record of a kind came.
    pub fn count_kind(&mut self, kind: u8) {
        self.count(WANTED[15 + kind as usize]);
    }

    /// Adds another's counts.
    pub fn add(&mut self, other: &Coverage) {
        for (what, count) in &other.counts {
            *self.counts.entry(what).or_insert(0) += count;
        }
    }

    /// How often it came.
    pub fn of(&self, what: &str) -> u64 {
        self.counts.get(what).copied().unwrap_or(0)
    }

    /// What never came.
    pub fn missing(&self) -> Vec<&'static str> {
        WANTED.iter().copied().filter(|what| self.of(what) == 0).collect()
    }

    /// All of it as one line.
    pub fn line(&self) -> String {
        let all: Vec<String> = WANTED.iter().map(|what| format!("{what}: {}", self.of(what))).collect();
        all.join(", ")
    }
}

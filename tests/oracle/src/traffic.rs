//! Calls that make traffic, chosen by what the oracle holds.
use crate::bits::Bits;
use crate::call::{Call, Frame, Request};
use crate::oracle::{Oracle, RECEIPTS, Started};
use crate::prng::Prng;
use tetra_core::tdma_time::TIME_INT_WRAP;
use tetra_core::{TdmaTime, TxState};
use tetra_entities::llc::llc_bs_ms::ExpectedInAck;

/// The station that a run plays on.
pub struct Station {
    /// Its addresses.
    pub addresses: Vec<u32>,
    /// Its carriers, the main one first.
    pub carriers: Vec<u16>,
    /// Its T251.
    pub t251: u16,
    /// A long SDU comes once in so many.
    pub long_sdu_odds: usize,
    /// A block comes once in so many.
    pub block_odds: usize,
    /// A discarded report comes once in so many.
    pub discarded_odds: usize,
    /// The next address that has no row yet.
    pub next_fresh: usize,
    /// Of two such addresses, so many get their row by a frame.
    pub fresh_frames: usize,
}

/// Lengths of SDUs at which something changes.
const LENGTHS: &[usize] =
    &[0, 1, 3, 4, 7, 8, 9, 10, 11, 12, 15, 16, 17, 24, 31, 32, 33, 63, 64, 65, 128, 2586, 2587, 2588, 2594, 2595];
/// Numbers of four bytes that are easily lost.
const WORDS: &[u32] = &[0, 0, 0, 1, 2, 0x80, 0x1_00, 0x1_0000, 0x100_0000, 0x8000_0000, 0xffff_ffff, 0x1234_5678];

impl Station {
    /// A station that a source of numbers gives.
    pub fn new(prng: &mut Prng) -> Station {
        let count = prng.one_of(&[1, 1, 3, 3, 3, 32, 32, 140, 300]);
        let awkward = [0, 1, 0x000100, 0x010000, 0xffffff, 0xfffffe, 0x7fffff, 0x800000];
        let first = prng.below(0xff_0000) as u32;
        let mut addresses: Vec<u32> = (0..count).map(|at| first + at).collect();
        for place in 0..addresses.len().min(6) {
            if prng.once_in(3) {
                let other = prng.one_of(&awkward);
                if !addresses.contains(&other) {
                    addresses[place] = other;
                }
            }
        }
        let mut carriers = vec![prng.one_of(&[0x05fa, 0, 1, 0xffff, 0x0100])];
        while carriers.len() < prng.one_of(&[1, 2, 2, 3, 4]) {
            carriers.push(prng.one_of(&[0x05fa, 0x05fb, 0x06fa, 0, 0xffff, 0x00fa]));
        }
        Station {
            addresses,
            carriers,
            t251: prng.one_of(&[1, 2, 3, 4, 4, 4, 5, 8, 18, 72, 300, 0x7fff, 0xffff]),
            long_sdu_odds: prng.one_of(&[6, 20, 60, 400]),
            block_odds: prng.one_of(&[2, 5, 20]),
            discarded_odds: prng.one_of(&[2, 3, 5, 20]),
            next_fresh: 0,
            fresh_frames: prng.below(3),
        }
    }

    /// A start.
    pub fn start(&self, prng: &mut Prng) -> Call {
        let t251 = if prng.once_in(6) { prng.one_of(&[1, 2, 3, 6, 0x100, 0xffff]) } else { self.t251 };
        let carrier = if prng.once_in(8) { prng.one_of(&self.carriers) } else { self.carriers[0] };
        Call::Start { carrier, t251 }
    }

    /// A slot that a tick start may set: the next one, one near the end of some message's T251, or one far away.
    pub fn time(&self, oracle: &Oracle, prng: &mut Prng) -> Call {
        let Some(started) = &oracle.link else {
            return at_slot(prng.below(TIME_INT_WRAP as usize) as i64);
        };
        let now = started.now.to_int() as i64;
        let done: Vec<i64> =
            started.llc.messages().iter().filter_map(|m| m.t_umac_done).map(|time| time.to_int() as i64).collect();
        let half = TIME_INT_WRAP as i64 / 2;
        match prng.below(20) {
            0..10 => at_slot(now + 1),
            10 => at_slot(now),
            11 => at_slot(now + prng.below(6) as i64),
            12..17 if !done.is_empty() => at_slot(prng.one_of(&done) + started.t251 as i64 + prng.one_of(&[-1, 0, 0, 0, 1])),
            17 if !done.is_empty() => {
                at_slot(prng.one_of(&done) + prng.one_of(&[-1, -2, -1000, half - 1, half, half + 1, -half]))
            }
            18 => at_slot(now - prng.below(4) as i64),
            19 => at_slot(prng.one_of(&[0, 1, -1, -2, -3, half, TIME_INT_WRAP as i64 - 1]) + prng.below(3) as i64),
            _ => at_slot(now + started.t251 as i64 + prng.one_of(&[-1, 0, 1])),
        }
    }

    /// A block.
    fn block(&self, prng: &mut Prng) -> Vec<u8> {
        if !prng.once_in(self.block_odds) {
            return Vec::new();
        }
        let count = if prng.once_in(6) { prng.one_of(&[63, 64]) } else { 1 + prng.below(5) };
        (0..count).map(|_| prng.next() as u8).collect()
    }

    /// The bits of an SDU.
    fn sdu(&self, prng: &mut Prng) -> Bits {
        let mut bits = Bits::default();
        let count = if prng.once_in(self.long_sdu_odds) {
            if prng.once_in(4) { prng.below(2596) } else { prng.one_of(LENGTHS) }
        } else {
            prng.one_of(&[0, 1, 5, 8, 13, 16, 16, 20, 32, 40])
        };
        bits.push_random(count, prng);
        bits
    }

    /// One of the addresses.
    pub fn address(&self, prng: &mut Prng) -> u32 {
        prng.one_of(&self.addresses)
    }

    /// A request for an address, with these flags.
    pub fn request(&self, ssi: u32, kind: u8, flags: u8, oracle: &Oracle, prng: &mut Prng) -> Request {
        let free: Vec<u8> = (0..RECEIPTS as u8).filter(|&at| oracle.receipts[at as usize].is_none()).collect();
        let receipt = if free.is_empty() || prng.once_in(40) { prng.below(RECEIPTS) as u8 } else { prng.one_of(&free) };
        let carrier_given = prng.below(2) as u8;
        let has_mask = prng.once_in(5);
        let sdu = self.sdu(prng);
        Request {
            ssi,
            kind,
            carrier_given,
            carrier: if carrier_given == 1 { prng.one_of(&self.carriers) } else { 0 },
            link: prng.one_of(WORDS),
            endpoint: prng.one_of(WORDS),
            handle: prng.one_of(WORDS),
            flags: flags | (prng.once_in(6) as u8) << 1 | (has_mask as u8) << 2,
            mask: if has_mask { prng.below(16) as u8 } else { 0 },
            receipt,
            block: self.block(prng),
            bit_count: sdu.len() as u16,
            bits: sdu.bytes(),
        }
    }

    /// An address and a carrier on which an acknowledgement is due, or any.
    fn due_or_any(&self, oracle: &Oracle, prng: &mut Prng) -> (u32, u16) {
        let due = oracle.link.iter().flat_map(|started| started.llc.due());
        let due: Vec<(u32, u16)> = due.map(|ack| (ack.addr.ssi, ack.carrier_num)).collect();
        if due.is_empty() || prng.once_in(3) { (self.address(prng), prng.one_of(&self.carriers)) } else { prng.one_of(&due) }
    }

    /// A data request on the acknowledged path.
    pub fn acknowledged(&self, oracle: &Oracle, prng: &mut Prng) -> Call {
        let (ssi, carrier) = self.due_or_any(oracle, prng);
        let mut request = self.request(ssi, 1, 0, oracle, prng);
        if request.carrier_given == 1 && prng.once_in(2) {
            request.carrier = carrier;
        }
        Call::Data(request)
    }

    /// What makes the row of an address that has none yet: a data request on the acknowledged path, or a frame with N(S).
    pub fn fresh(&mut self, oracle: &Oracle, prng: &mut Prng) -> Call {
        self.next_fresh = (self.next_fresh + 1) % self.addresses.len();
        let ssi = self.addresses[self.next_fresh];
        if prng.below(2) < self.fresh_frames {
            return self.numbered(ssi, prng);
        }
        Call::Data(self.request(ssi, 1, 0, oracle, prng))
    }

    /// A frame with N(S).
    fn numbered(&self, ssi: u32, prng: &mut Prng) -> Call {
        let (kind, nr, ns) = (prng.below(2) as u32, prng.below(2) as u8, prng.below(2) as u8);
        self.frame(ssi, prng.one_of(&self.carriers), kind, nr, ns, prng)
    }

    /// A data request that steals or goes to a group.
    pub fn unacknowledged(&self, oracle: &Oracle, prng: &mut Prng) -> Call {
        let (ssi, carrier) = self.due_or_any(oracle, prng);
        let (kind, flags) = prng.one_of(&[(1, 1), (1, 1), (2, 1), (2, 0)]);
        let mut request = self.request(ssi, kind, flags, oracle, prng);
        if request.carrier_given == 1 && prng.once_in(2) {
            request.carrier = carrier;
        }
        Call::Data(request)
    }

    /// A unitdata request.
    pub fn unitdata(&self, oracle: &Oracle, prng: &mut Prng) -> Call {
        let (kind, flags) = prng.one_of(&[(1, 0), (1, 1), (2, 0), (2, 1)]);
        Call::Unitdata(self.request(self.address(prng), kind, flags, oracle, prng))
    }

    /// A frame with these bits.
    fn frame_of(&self, ssi: u32, carrier: u16, bits: &Bits, prng: &mut Prng) -> Frame {
        Frame {
            ssi,
            kind: prng.one_of(&[1, 1, 1, 2]),
            carrier,
            link: prng.one_of(WORDS),
            endpoint: prng.one_of(WORDS),
            block: self.block(prng),
            bit_count: bits.len() as u16,
            bits: bits.bytes(),
        }
    }

    /// The length of an SDU behind a header of so many bits and in front of an FCS: half of them such as change something there.
    fn before_fcs(&self, header: usize, prng: &mut Prng) -> usize {
        if prng.once_in(2) {
            return self.sdu(prng).len();
        }
        let is_long = prng.once_in(self.long_sdu_odds);
        if is_long { prng.one_of(&[2595, 2633 - 32 - header]) } else { prng.one_of(&[0, 1, 7, 8, 9]) }
    }

    /// A frame of a type (its two bits) with these numbers, and now and then an SDU and a right FCS.
    fn frame(&self, ssi: u32, carrier: u16, kind: u32, nr: u8, ns: u8, prng: &mut Prng) -> Call {
        let has_fcs = prng.once_in(4);
        let mut bits = header(kind, has_fcs, nr, ns);
        let from = bits.len();
        if kind != 3 || prng.once_in(4) {
            let sdu = if has_fcs { self.before_fcs(from, prng) } else { self.sdu(prng).len() };
            bits.push_random(sdu, prng);
        }
        if has_fcs {
            bits.push_fcs(from);
        }
        Call::Frame(self.frame_of(ssi, carrier, &bits, prng))
    }

    /// A frame whose N(R) finishes a message, if one can be finished; else one that comes early, or any.
    pub fn fitting(&self, oracle: &Oracle, prng: &mut Prng) -> Call {
        let sent = under_way(oracle);
        let done: Vec<_> = sent.iter().filter(|m| m.t_umac_done.is_some()).collect();
        let kind = prng.one_of(&[0, 3, 3]);
        let ns = prng.below(2) as u8;
        match (done.is_empty(), sent.is_empty()) {
            (false, _) => {
                let message = done[prng.below(done.len())];
                self.frame(message.addr.ssi, message.carrier_num, kind, message.ns, ns, prng)
            }
            (true, false) => {
                let message = sent[prng.below(sent.len())];
                self.frame(message.addr.ssi, message.carrier_num, kind, message.ns, ns, prng)
            }
            _ => {
                let (ssi, carrier) = (self.address(prng), prng.one_of(&self.carriers));
                self.frame(ssi, carrier, kind, prng.below(2) as u8, ns, prng)
            }
        }
    }

    /// A frame whose N(R) does not fit, comes on another carrier, or comes early.
    pub fn unfitting(&self, oracle: &Oracle, prng: &mut Prng) -> Call {
        let sent = under_way(oracle);
        let kind = prng.one_of(&[0, 3, 3]);
        let ns = prng.below(2) as u8;
        if sent.is_empty() || prng.once_in(10) {
            let (ssi, carrier) = (self.address(prng), prng.one_of(&self.carriers));
            return self.frame(ssi, carrier, kind, prng.below(2) as u8, ns, prng);
        }
        let early: Vec<_> = sent.iter().copied().filter(|m| m.t_umac_done.is_none()).collect();
        let message =
            if !early.is_empty() && prng.once_in(3) { early[prng.below(early.len())] } else { sent[prng.below(sent.len())] };
        let (carrier, nr) = match prng.below(4) {
            0 => (prng.one_of(&self.carriers), message.ns),
            1 => (message.carrier_num ^ 1, message.ns),
            _ => (message.carrier_num, message.ns ^ 1),
        };
        self.frame(message.addr.ssi, carrier, kind, nr, ns, prng)
    }

    /// A frame that brings data.
    pub fn data_up(&self, prng: &mut Prng) -> Call {
        let kind = prng.one_of(&[0, 1, 1, 1, 2, 3]);
        let (nr, ns) = (prng.below(2) as u8, prng.below(2) as u8);
        self.frame(self.address(prng), prng.one_of(&self.carriers), kind, nr, ns, prng)
    }

    /// A frame that questions 9 to 12 may refuse: cut, of the advanced link, or with an FCS that is wrong.
    pub fn broken(&self, prng: &mut Prng) -> Call {
        let (kind, nr, ns) = (prng.below(4) as u32, prng.below(2) as u8, prng.below(2) as u8);
        let mut bits = header(kind, true, nr, ns);
        let from = bits.len();
        match prng.below(10) {
            0 => bits.cut(prng.below(4)),
            1 => {
                bits.flip(0);
                let count = prng.below(40);
                bits.push_random(count, prng);
            }
            2 => bits.cut(4 + prng.below(from - 3)),
            3 => {
                let count = prng.one_of(&[0, 1, 31, 32, 33]);
                bits.push_random(count, prng);
            }
            4 => bits.push_value(0, prng.one_of(&[30, 31, 32])),
            5 => bits.push_value(u32::MAX, prng.one_of(&[31, 32])),
            6 => {
                let count = prng.one_of(&[2590, 2595, 2596, 2597]);
                bits.push_random(count, prng);
                bits.push_fcs(from);
                bits.cut(2633);
            }
            _ => {
                let count = prng.one_of(&[0, 1, 2, 8, 30, 31, 32, 33, 64, 100]);
                bits.push_random(count, prng);
                bits.push_fcs(from);
                match prng.below(4) {
                    0 => {}
                    1 => bits.flip(from + prng.below(bits.len() - from)),
                    2 => bits.flip(bits.len() - 1),
                    _ => bits.cut(bits.len() - 1 - prng.below(32)),
                }
            }
        }
        Call::Frame(self.frame_of(self.address(prng), prng.one_of(&self.carriers), &bits, prng))
    }

    /// A report: on a receipt that waits for one, if there is one.
    pub fn report(&self, oracle: &Oracle, prng: &mut Prng) -> Call {
        let open: Vec<u8> = (0..RECEIPTS as u8).filter(|&at| is_open(oracle, at)).collect();
        let receipt = if open.is_empty() { any_receipt(oracle, prng) } else { prng.one_of(&open) };
        Call::Report { receipt, value: 1 + prng.once_in(self.discarded_odds) as u8 }
    }

    /// A release: of a receipt that can be released, if there is one.
    pub fn release(&self, oracle: &Oracle, prng: &mut Prng) -> Call {
        let open: Vec<u8> = (0..RECEIPTS as u8).filter(|&at| is_releasable(oracle, at)).collect();
        Call::Release { receipt: if open.is_empty() { any_receipt(oracle, prng) } else { prng.one_of(&open) } }
    }

    /// A report that need not fit.
    pub fn any_report(&self, oracle: &Oracle, prng: &mut Prng) -> Call {
        Call::Report { receipt: any_receipt(oracle, prng), value: 1 + prng.below(2) as u8 }
    }

    /// A release that need not fit.
    pub fn any_release(&self, oracle: &Oracle, prng: &mut Prng) -> Call {
        Call::Release { receipt: any_receipt(oracle, prng) }
    }

    /// What two questions may refuse, where a table is full.
    pub fn at_limit(&self, oracle: &Oracle, prng: &mut Prng) -> Call {
        let discarded = |m: &&ExpectedInAck| m.t_umac_done.is_some() && m.tx_reporter.get_state() == TxState::Discarded;
        let discarded: Vec<_> = under_way(oracle).into_iter().filter(discarded).collect();
        match prng.below(7) {
            0..3 if !discarded.is_empty() => {
                let message = discarded[prng.below(discarded.len())];
                self.frame(message.addr.ssi, message.carrier_num, 0, message.ns, prng.below(2) as u8, prng)
            }
            0 | 3 => self.broken(prng),
            4 => {
                let mut request = self.request(self.address(prng), 1, prng.below(2) as u8, oracle, prng);
                request.receipt = any_receipt(oracle, prng);
                Call::Data(request)
            }
            5 => self.numbered(self.address(prng), prng),
            _ => self.acknowledged(oracle, prng),
        }
    }

    /// What brings the messages held and what is due nearer to their end: report, tick, acknowledgement, release.
    pub fn drain(&self, oracle: &Oracle, prng: &mut Prng) -> Call {
        let Some(started) = &oracle.link else {
            return self.start(prng);
        };
        let open: Vec<u8> = (0..RECEIPTS as u8).filter(|&at| is_open(oracle, at)).collect();
        if !open.is_empty() {
            return Call::Report { receipt: prng.one_of(&open), value: 1 };
        }
        let done: Vec<_> = started.llc.messages().iter().filter(|m| m.t_umac_done.is_some()).collect();
        if let Some(message) = done.iter().find(|m| m.tx_reporter.get_state() == TxState::Transmitted) {
            return self.frame(message.addr.ssi, message.carrier_num, 3, message.ns, 0, prng);
        }
        let Started { llc, .. } = started;
        if !llc.messages().is_empty() || !llc.unacknowledged().is_empty() || !llc.due().is_empty() {
            return if prng.once_in(2) { self.time(oracle, prng) } else { Call::TickEnd };
        }
        self.release(oracle, prng)
    }
}

/// The tick start of a slot, counted around the wrap.
fn at_slot(slot: i64) -> Call {
    let TdmaTime { h, m, f, t } = TdmaTime::from_int(slot.rem_euclid(TIME_INT_WRAP as i64) as i32);
    Call::TickStart { h, m, f, t }
}

/// A header.
fn header(kind: u32, has_fcs: bool, nr: u8, ns: u8) -> Bits {
    let mut bits = Bits::default();
    bits.push_value((has_fcs as u32) << 2 | kind, 4);
    match kind {
        0 => bits.push_value((nr << 1 | ns) as u32, 2),
        1 => bits.push_value(ns as u32, 1),
        2 => {}
        _ => bits.push_value(nr as u32, 1),
    }
    bits
}

/// The messages under way.
fn under_way(oracle: &Oracle) -> Vec<&ExpectedInAck> {
    let all = oracle.link.iter().flat_map(|started| started.llc.messages());
    all.filter(|m| m.t_submitted_to_umac.is_some()).collect()
}

/// Is this receipt final, and its message no longer held?
pub fn is_releasable(oracle: &Oracle, at: u8) -> bool {
    let Some(reporter) = &oracle.receipts[at as usize] else {
        return false;
    };
    let mut messages = oracle.link.iter().flat_map(|started| started.llc.messages());
    reporter.is_in_final_state() && !messages.any(|m| m.tx_reporter.is_same(reporter))
}

/// Is this receipt Pending, and its message sent?
fn is_open(oracle: &Oracle, at: u8) -> bool {
    let Some(reporter) = &oracle.receipts[at as usize] else {
        return false;
    };
    let waits = |m: &ExpectedInAck| m.t_submitted_to_umac.is_none() && m.tx_reporter.is_same(reporter);
    reporter.get_state() == TxState::Pending
        && !oracle.link.iter().any(|started| {
            started.llc.messages().iter().any(waits)
                || started.llc.unacknowledged().iter().any(|m| crate::oracle::is_on(m, reporter))
        })
}

/// Any receipt, mostly a taken one.
fn any_receipt(oracle: &Oracle, prng: &mut Prng) -> u8 {
    let taken: Vec<u8> = (0..RECEIPTS as u8).filter(|&at| oracle.receipts[at as usize].is_some()).collect();
    if taken.is_empty() || prng.once_in(6) { prng.below(RECEIPTS) as u8 } else { prng.one_of(&taken) }
}

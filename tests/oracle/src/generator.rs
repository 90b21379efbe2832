//! Runs from a seed: phases of traffic, each with its own weights.
use crate::call::Call;
use crate::hex_line::line_of;
use crate::oracle::Oracle;
use crate::prng::Prng;
use crate::spoilt;
use crate::traffic::Station;

/// What the next call may be; the weights of a phase are in this order.
const ACTIONS: usize = 20;

/// A phase: weights, and how many calls it has left.
struct Phase {
    weights: [usize; ACTIONS],
    left: usize,
}

/// A run that is being made.
pub struct Generator {
    prng: Prng,
    station: Station,
    phase: Phase,
    left: usize,
    before_start: usize,
    is_begun: bool,
    recent: Vec<Vec<u8>>,
}

impl Generator {
    /// The run of a seed; if nothing was started yet, with more calls before its start.
    pub fn new(seed: u64, is_new: bool) -> Generator {
        let mut prng = Prng::new(seed);
        let station = Station::new(&mut prng);
        let left = if station.addresses.len() > 256 { 2500 + prng.below(500) } else { prng.one_of(&[200, 400, 800, 1500, 3000]) };
        let before_start = if is_new { prng.below(40) } else { prng.one_of(&[0, 0, 1, 3, 5]) };
        let phase = Phase { weights: [1; ACTIONS], left: 0 };
        Generator { prng, station, phase, left, before_start, is_begun: false, recent: Vec::new() }
    }

    /// The next line, chosen by what the oracle holds; nothing at the end of the run.
    pub fn next(&mut self, oracle: &Oracle) -> Option<Vec<u8>> {
        self.left = self.left.checked_sub(1)?;
        if !self.is_begun {
            if self.before_start == 0 {
                self.is_begun = true;
                self.phase.left = 0;
                return Some(line_of(&self.station.start(&mut self.prng).bytes()));
            }
            self.before_start -= 1;
        }
        // A full table is left soon, so that more is seen than refusals.
        let is_full = [7, 8, 13].contains(&oracle.last);
        if is_full && self.prng.once_in(8) {
            self.phase.left = 0;
        }
        if self.phase.left == 0 {
            self.phase = self.phase();
        }
        self.phase.left -= 1;
        let line = if is_full && self.prng.once_in(3) {
            line_of(&self.station.at_limit(oracle, &mut self.prng).bytes())
        } else {
            self.line(oracle)
        };
        if self.recent.len() < 64 {
            self.recent.push(line.clone());
        } else {
            let at = self.prng.below(64);
            self.recent[at] = line.clone();
        }
        Some(line)
    }

    /// A new phase.
    fn phase(&mut self) -> Phase {
        // time, tick end, acknowledged, unacknowledged, unitdata, | fitting, unfitting, data up, broken, report, |
        // any report, release, any release, start, value, | bytes, line, again, fresh, drain
        let is_wide = self.station.addresses.len() > 256;
        let style = match self.is_begun {
            false => 7,
            true if is_wide && !self.prng.once_in(6) => 8,
            true => self.prng.below(11),
        };
        let mut weights = match style {
            // Floods: acknowledged, unacknowledged, due.
            0 => [1, 0, 200, 2, 1, 1, 3, 3, 1, 1, 1, 3, 1, 0, 1, 1, 1, 2, 20, 0],
            1 => [1, 0, 2, 100, 100, 1, 1, 10, 1, 1, 1, 3, 1, 0, 1, 1, 1, 2, 0, 0],
            2 => [1, 0, 2, 1, 1, 1, 1, 200, 1, 1, 1, 3, 1, 0, 1, 1, 1, 2, 0, 0],
            // Everything runs out.
            3 => [10, 10, 1, 0, 0, 0, 0, 2, 0, 20, 1, 10, 1, 0, 1, 1, 1, 1, 0, 200],
            // Nobody acknowledges.
            4 | 5 => [60, 60, 8, 2, 1, 2, 4, 2, 1, 60, 3, 10, 3, 0, 1, 1, 1, 1, 0, 0],
            // Nobody reports.
            6 => [40, 40, 40, 10, 10, 10, 20, 20, 2, 1, 1, 10, 3, 0, 1, 1, 1, 2, 0, 0],
            // Many refusals.
            7 => [10, 10, 10, 5, 5, 10, 10, 10, 30, 10, 30, 5, 30, 1, 30, 30, 20, 20, 0, 0],
            // Rows fill.
            8 => [2, 2, 0, 0, 0, 0, 2, 0, 0, 0, 1, 60, 1, 0, 1, 1, 1, 0, 200, 200],
            // As on the quay.
            _ => [60, 60, 50, 20, 15, 35, 25, 25, 6, 60, 8, 30, 8, 1, 5, 5, 5, 5, 0, 0],
        };
        for weight in &mut weights {
            *weight *= self.prng.one_of(&[0, 1, 2, 2, 2, 3, 6]);
        }
        // A run whose weights are all 0 would stand still.
        weights[1] += 1;
        if self.prng.once_in(30) {
            weights[13] += 20;
        }
        Phase { weights, left: 20 + self.prng.below(if is_wide { 600 } else { 200 }) }
    }

    /// A line of the phase.
    fn line(&mut self, oracle: &Oracle) -> Vec<u8> {
        let action = self.prng.weighted(&self.phase.weights);
        match action {
            14 => {
                let call = self.traffic(oracle);
                line_of(&spoilt::value(call, &mut self.prng).bytes())
            }
            15 => {
                let call = self.traffic(oracle);
                line_of(&spoilt::bytes(&call, &mut self.prng))
            }
            16 => {
                let call = self.traffic(oracle);
                spoilt::line(&call, &mut self.prng)
            }
            17 if !self.recent.is_empty() => self.recent[self.prng.below(self.recent.len())].clone(),
            _ => line_of(&self.call(action, oracle).bytes()),
        }
    }

    /// Any call that is not spoilt.
    fn traffic(&mut self, oracle: &Oracle) -> Call {
        let action = self.prng.below(14);
        self.call(action, oracle)
    }

    /// The call of an action.
    fn call(&mut self, action: usize, oracle: &Oracle) -> Call {
        let (station, prng) = (&mut self.station, &mut self.prng);
        match action {
            0 => station.time(oracle, prng),
            2 => station.acknowledged(oracle, prng),
            3 => station.unacknowledged(oracle, prng),
            4 => station.unitdata(oracle, prng),
            5 => station.fitting(oracle, prng),
            6 => station.unfitting(oracle, prng),
            7 => station.data_up(prng),
            8 => station.broken(prng),
            9 => station.report(oracle, prng),
            10 => station.any_report(oracle, prng),
            11 => station.release(oracle, prng),
            12 => station.any_release(oracle, prng),
            13 => station.start(prng),
            18 => station.fresh(oracle, prng),
            19 => station.drain(oracle, prng),
            _ => Call::TickEnd,
        }
    }
}

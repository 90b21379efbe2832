//! The two sides under the clock.
use crate::scene::Scene;
use oracle::call::Call;
use oracle::message;
use oracle::oracle::{RECEIPTS, mark};
use std::hint::black_box;
use std::time::{Duration, Instant};
use tetra_config::bluestation::SharedConfig;
use tetra_core::{TdmaTime, TxReporter};
use tetra_entities::llc::components::fcs::compute_fcs;
use tetra_entities::llc::llc_bs_ms::Llc;
use tetra_entities::{MessageQueue, TetraEntityTrait};
use tetra_pdus::llc::consts::timers::set_sender_retry_timer;
use tetra_saps::{SapMsg, SapMsgInner};
use wipturay::Link;

/// Rounds: in each, both sides take a turn.
const ROUNDS: usize = 10;
/// How long a side's turn is, about.
const TURN: Duration = Duration::from_millis(10);

/// The least time that each timed stretch of a scene took, of all passes over it.
#[derive(Default)]
struct Clock {
    least: Vec<Duration>,
    at: usize,
}

impl Clock {
    /// A new pass.
    fn begin(&mut self) {
        self.at = 0;
    }

    /// Does it, under the clock or not.
    fn run(&mut self, is_timed: bool, f: impl FnOnce()) {
        let begin = Instant::now();
        f();
        let taken = begin.elapsed();
        if is_timed {
            if self.at == self.least.len() {
                self.least.push(taken);
            }
            self.least[self.at] = self.least[self.at].min(taken);
            self.at += 1;
        }
    }

    /// Nanoseconds for each of so many parts, less the clock's own.
    fn nanoseconds(&self, parts: usize) -> f64 {
        let own = (0..1000).map(|_| Instant::now().elapsed()).min().unwrap();
        let sum: Duration = self.least.iter().map(|taken| taken.saturating_sub(own)).sum();
        sum.as_nanos() as f64 / parts as f64
    }
}

/// The proved engine, which gets a call's bytes; its records are taken apart.
struct Here<'a> {
    scene: &'a Scene,
    calls: Vec<Vec<Vec<u8>>>,
    link: Link,
}

impl<'a> Here<'a> {
    fn new(scene: &'a Scene) -> Here<'a> {
        let calls = scene.stretches.iter().map(|stretch| stretch.calls.iter().map(|call| call.bytes()).collect()).collect();
        Here { scene, calls, link: Link::new() }
    }

    /// The whole scene: how many records came.
    fn pass(&mut self, clock: &mut Clock) -> usize {
        clock.begin();
        let mut given = 0;
        for (stretch, calls) in self.scene.stretches.iter().zip(&self.calls) {
            clock.run(stretch.is_timed, || {
                for call in calls {
                    match self.link.call(black_box(call)) {
                        Ok(records) => {
                            for record in records {
                                black_box(&record);
                                given += 1;
                            }
                        }
                        Err(refused) => {
                            black_box(refused);
                        }
                    }
                }
            });
        }
        given
    }
}

/// What the Rust gets for a call: made before the clock runs, and given away.
enum Step {
    Start(SharedConfig),
    TickStart(TdmaTime),
    TickEnd,
    Request(SapMsg, u8, TxReporter),
    Frame(SapMsg),
    Report(u8, u8),
    Release(u8),
}

impl Step {
    /// The step of a call.
    fn of(call: &Call) -> Step {
        match call {
            Call::Start { carrier, .. } => Step::Start(SharedConfig::new(*carrier)),
            Call::TickStart { h, m, f, t } => Step::TickStart(TdmaTime { h: *h, m: *m, f: *f, t: *t }),
            Call::TickEnd => Step::TickEnd,
            Call::Data(request) => {
                let reporter = if request.is_acknowledged() { TxReporter::new() } else { TxReporter::new_unacked() };
                Step::Request(message::data(request, reporter.clone()), request.receipt, reporter)
            }
            Call::Unitdata(request) => {
                let reporter = TxReporter::new_unacked();
                Step::Request(message::unitdata(request, reporter.clone()), request.receipt, reporter)
            }
            Call::Frame(frame) => Step::Frame(message::frame(frame)),
            Call::Report { receipt, value } => Step::Report(*receipt, *value),
            Call::Release { receipt } => Step::Release(*receipt),
        }
    }
}

/// The Rust's own FCS over the SDU of a data request that asks for one, which its link leaves out. Every such request of a scene
/// goes out in a PDU with the FCS flag.
fn announced(message: &SapMsg) -> Option<u32> {
    match &message.msg {
        SapMsgInner::TlaTlDataReqBl(request) if request.fcs_flag => {
            let sdu = &request.tl_sdu;
            Some(compute_fcs(sdu, sdu.get_pos(), sdu.get_len()))
        }
        _ => None,
    }
}

/// The Rust's link, and the receipts of its upper layer; what it gives is dropped.
struct Rust<'a> {
    scene: &'a Scene,
    llc: Llc,
    receipts: Vec<Option<TxReporter>>,
}

impl<'a> Rust<'a> {
    fn new(scene: &'a Scene) -> Rust<'a> {
        set_sender_retry_timer(scene.t251.into());
        Rust { scene, llc: Llc::new(SharedConfig::new(0)), receipts: vec![None; RECEIPTS] }
    }

    /// The whole scene: how many messages came.
    fn pass(&mut self, clock: &mut Clock) -> usize {
        clock.begin();
        let mut given = 0;
        let mut queue = MessageQueue::new();
        for stretch in &self.scene.stretches {
            let steps: Vec<Step> = stretch.calls.iter().map(Step::of).collect();
            clock.run(stretch.is_timed, || {
                for step in steps {
                    self.take(step, &mut queue);
                    while let Some(message) = queue.pop_front() {
                        black_box(&message);
                        given += 1;
                    }
                }
            });
        }
        given
    }

    /// One step.
    fn take(&mut self, step: Step, queue: &mut MessageQueue) {
        match step {
            Step::Start(config) => self.llc = Llc::new(config),
            Step::TickStart(time) => self.llc.tick_start(queue, time),
            // The link does not look at the time that it is given here.
            Step::TickEnd => {
                self.llc.tick_end(queue, TdmaTime::default());
            }
            Step::Request(message, receipt, reporter) => {
                self.receipts[usize::from(receipt)] = Some(reporter);
                // So that both do the same, the FCS is computed here too, under the clock and once for each request; putting its 32
                // bits behind the SDU is left out.
                black_box(announced(&message));
                self.llc.rx_prim(queue, message);
            }
            Step::Frame(message) => self.llc.rx_prim(queue, message),
            Step::Report(receipt, value) => mark(self.receipts[usize::from(receipt)].as_ref().unwrap(), value),
            Step::Release(receipt) => self.receipts[usize::from(receipt)] = None,
        }
    }
}

/// Passes over a scene, one or more.
fn turn(mut pass: impl FnMut()) {
    let begin = Instant::now();
    pass();
    while begin.elapsed() < TURN {
        pass();
    }
}

/// Nanoseconds for each part of a scene, here and in the Rust.
pub fn times(scene: &Scene) -> (f64, f64) {
    let records = scene.assert_same();
    let (mut here, mut rust) = (Here::new(scene), Rust::new(scene));
    let (mut clock_here, mut clock_rust) = (Clock::default(), Clock::default());
    for _ in 0..ROUNDS {
        turn(|| assert_eq!(here.pass(&mut clock_here), records, "{}: the records of the link", scene.what));
        turn(|| assert_eq!(rust.pass(&mut clock_rust), records, "{}: the messages of the Rust", scene.what));
    }
    (clock_here.nanoseconds(scene.parts), clock_rust.nanoseconds(scene.parts))
}

//! Comparisons one after the other: what they found, and what came in them.
use crate::batch::Batch;
use crate::compare::difference;
use crate::coverage::Coverage;
use crate::hex_line::line_of;
use crate::largest;
use crate::outcome::Outcome;
use crate::short_runs::{Alphabet, alphabets};
use crate::shrink::shrink;
use crate::store;
use crate::subject::Subject;
use std::path::Path;
use std::time::{Duration, Instant};

/// Lines from one new state on, about.
const LINES: usize = 20_000;
/// After so many differences nothing more is compared.
const ENOUGH: usize = 3;

/// What was compared so far.
pub struct Comparison {
    subjects: Vec<Subject>,
    coverage: Coverage,
    calls: usize,
    failures: usize,
    begin: Instant,
}

impl Comparison {
    /// Nothing yet.
    pub fn new(subjects: Vec<Subject>) -> Comparison {
        Comparison { subjects, coverage: Coverage::default(), calls: 0, failures: 0, begin: Instant::now() }
    }

    /// Compares one batch, with each subject; on a difference prints the smallest run that shows it. Is all the same?
    fn compare(&mut self, label: &str, batch: &Batch) -> bool {
        if self.is_enough() {
            return false;
        }
        self.calls += batch.lines.len();
        self.coverage.add(&batch.oracle.coverage);
        let differing = self.differing(batch);
        for subject in &differing {
            println!("FAILED: {label}: {} differs", subject.name());
            show_smallest(subject, batch);
        }
        let is_same = differing.is_empty();
        self.failures += differing.len();
        is_same
    }

    /// The subjects that differ on a batch; all are tried at the same time.
    fn differing(&self, batch: &Batch) -> Vec<&Subject> {
        std::thread::scope(|scope| {
            let tried = self.subjects.iter().map(|subject| (subject, scope.spawn(|| difference(subject, batch).is_some())));
            let tried: Vec<_> = tried.collect();
            tried.into_iter().filter_map(|(subject, differs)| differs.join().unwrap().then_some(subject)).collect()
        })
    }

    /// Was enough found?
    fn is_enough(&self) -> bool {
        self.failures >= ENOUGH
    }

    /// The run with the largest tick ends.
    pub fn largest(&mut self) {
        let lines: Vec<_> = largest::run().iter().map(|call| line_of(&call.bytes())).collect();
        let batch = Batch::of(&lines);
        let records = |expected: &Outcome| expected.text.lines().skip(1).map(|line| line.len() / 2).sum::<usize>();
        let most = batch.expected.iter().map(records).max().unwrap_or(0);
        if !self.compare("the largest tick ends", &batch) {
            return;
        }
        if most == largest::MOST {
            println!("ok: tick ends of up to {most} bytes, {} calls", lines.len());
        } else {
            println!("FAILED: the largest tick end has {most} bytes, not {}", largest::MOST);
            self.failures += 1;
        }
    }

    /// The runs of one seed.
    pub fn seed(&mut self, seed: u64) -> bool {
        let batch = Batch::random(seed, LINES);
        self.compare(&format!("seed {seed}"), &batch)
    }

    /// Some seeds that are always the same.
    pub fn fixed_seeds(&mut self) {
        let calls = self.calls;
        if (1..=20).fold(true, |is_same, seed| is_same & self.seed(seed)) {
            println!("ok: seeds 1 to 20, {} calls", self.calls - calls);
        }
    }

    /// Seeds from `first` on, until the comparison has lasted so many seconds; at least one.
    pub fn fresh_seeds(&mut self, first: u64, seconds: u64) {
        println!("fresh seeds from {first} on");
        let (calls, mut seed, mut is_same) = (self.calls, first, !self.is_enough());
        while (seed == first || self.begin.elapsed() < Duration::from_secs(seconds)) && !self.is_enough() {
            is_same &= self.seed(seed);
            seed += 1;
        }
        if is_same {
            println!("ok: {} fresh seeds, {} calls", seed - first, self.calls - calls);
        }
    }

    /// All lists of `length` calls of each alphabet.
    pub fn short(&mut self, length: usize) {
        for alphabet in alphabets() {
            let calls = self.calls;
            let mut is_same = self.unstarted(&alphabet);
            for place in 0..alphabet.beginnings.len() {
                is_same &= self.after(&alphabet, place, length);
            }
            if is_same {
                let (letters, beginnings) = (alphabet.letters.len(), alphabet.beginnings.len());
                let calls = self.calls - calls;
                println!(
                    "ok: {}: every list of {length} out of {letters} after {beginnings} beginnings, {calls} calls",
                    alphabet.name
                );
            }
        }
    }

    /// All lists of `length` calls after one beginning, each behind a start of its own.
    fn after(&mut self, alphabet: &Alphabet, place: usize, length: usize) -> bool {
        let label = format!("{}, beginning {place}", alphabet.name);
        let mut batch = Batch::new();
        for number in 0..alphabet.count(length) {
            batch.push(line_of(&alphabet.start.bytes()));
            for call in alphabet.beginnings[place].iter().chain(&alphabet.list(number, length)).chain(&alphabet.tail) {
                batch.push(line_of(&call.bytes()));
            }
            if batch.lines.len() > LINES {
                if !self.compare(&label, &batch) {
                    return false;
                }
                batch = Batch::new();
            }
        }
        self.compare(&label, &batch)
    }

    /// All lists of two calls, each from a new state on, so that nothing was started; a start follows.
    fn unstarted(&mut self, alphabet: &Alphabet) -> bool {
        for number in 0..alphabet.count(2) {
            let mut batch = Batch::new();
            for call in alphabet.list(number, 2).iter().chain([&alphabet.start]).chain(&alphabet.tail) {
                batch.push(line_of(&call.bytes()));
            }
            if !self.compare(&format!("{}, not started", alphabet.name), &batch) {
                return false;
            }
        }
        true
    }

    /// The lines of a file.
    pub fn file(&mut self, file: &Path) {
        let batch = Batch::of(&store::lines_of(file));
        if self.compare(&file.display().to_string(), &batch) {
            println!("ok: {}, {} calls", file.display(), batch.lines.len());
        }
    }

    /// What came, how much and how long; ends the program. If all has to have come, what did not is a failure, unless
    /// differences cut the comparison short.
    pub fn finish(&self, is_all_wanted: bool) {
        println!("coverage: {}", self.coverage.line());
        let names: Vec<&str> = self.subjects.iter().map(|subject| subject.name()).collect();
        let seconds = self.begin.elapsed().as_secs();
        println!("{} calls compared, with each of: {}; in {seconds} seconds", self.calls, names.join(", "));
        let is_asked = is_all_wanted && self.failures == 0;
        let missing = if is_asked { self.coverage.missing() } else { Vec::new() };
        if !missing.is_empty() {
            println!("FAILED: never came: {}", missing.join(", "));
        } else if is_asked {
            println!("ok: everything that has to come came");
        }
        std::process::exit((self.failures > 0 || !missing.is_empty()) as i32);
    }
}

/// Prints the smallest run that shows how a subject differs, and both sides of its last call.
fn show_smallest(subject: &Subject, batch: &Batch) {
    let run = shrink(&batch.lines, |lines| difference(subject, &Batch::of(lines)).map(|found| found.at));
    for line in &run {
        println!("  {}", String::from_utf8_lossy(line));
    }
    if let Some(found) = difference(subject, &Batch::of(&run)) {
        print!("  expected of the last call:\n{}  found:\n{}", found.expected, found.found);
    }
}

//! What was compared: how often each function gave each answer, and what differs.
use std::collections::BTreeMap;
use std::fmt::Debug;

/// After so many differences of one kind of leaf no more are printed.
const ENOUGH: usize = 3;

/// A text, or its beginning.
fn cut(text: String) -> String {
    if text.len() > 4000 { format!("{} ..", &text[..4000]) } else { text }
}

/// Counts and differences of one kind of leaf.
pub struct Report {
    name: &'static str,
    counts: BTreeMap<(&'static str, &'static str), u64>,
    wanted: &'static [(&'static str, &'static [&'static str])],
    compared: u64,
    differences: usize,
}

impl Report {
    /// Nothing yet. `wanted`: for each function the answers that have to come.
    pub fn new(name: &'static str, wanted: &'static [(&'static str, &'static [&'static str])]) -> Report {
        Report { name, counts: BTreeMap::new(), wanted, compared: 0, differences: 0 }
    }

    /// Compares what is found here with what is expected, and counts the answer by its name.
    pub fn compare<T: PartialEq + Debug>(
        &mut self,
        function: &'static str,
        answer: &'static str,
        input: impl Fn() -> String,
        found: &T,
        expected: &T,
    ) {
        self.compared += 1;
        *self.counts.entry((function, answer)).or_insert(0) += 1;
        if found != expected {
            self.differences += 1;
            if self.differences <= ENOUGH {
                let (found, expected) = (cut(format!("{found:?}")), cut(format!("{expected:?}")));
                println!("  {}: {function}, {}\n    here: {found}\n    expected: {expected}", self.name, cut(input()));
            }
        }
    }

    /// Prints the result; were there no differences, and did all come?
    pub fn finish(&self) -> bool {
        let came = |function, answer| self.counts.get(&(function, answer)).copied().unwrap_or(0);
        let pairs = self.wanted.iter().flat_map(|(function, answers)| answers.iter().map(move |answer| (*function, *answer)));
        let pairs: Vec<_> = pairs.collect();
        let line: Vec<String> = pairs.iter().map(|(f, a)| format!("{f} {a}: {}", came(*f, *a))).collect();
        println!("coverage of {}: {}", self.name, line.join(", "));
        let mut missing: Vec<String> =
            pairs.iter().filter(|(f, a)| came(*f, *a) == 0).map(|(f, a)| format!("{f} {a}: never came")).collect();
        let is_wanted = |key: &&(&'static str, &'static str)| pairs.contains(*key);
        missing.extend(self.counts.keys().filter(|key| !is_wanted(key)).map(|(f, a)| format!("{f} {a}: not in the list")));
        if self.differences > 0 {
            println!("FAILED: {}: {} differences in {} comparisons", self.name, self.differences, self.compared);
        } else if !missing.is_empty() {
            println!("FAILED: {}: {}", self.name, missing.join("; "));
        } else {
            println!("ok: {} beside the Rust: {} comparisons", self.name, self.compared);
        }
        self.differences == 0 && missing.is_empty()
    }
}

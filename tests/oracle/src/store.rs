//! Files of lines, and the list that is stored for a place without the Rust.
use crate::batch::Batch;
use crate::coverage::WANTED;
use crate::full_width;
use crate::generator::Generator;
use std::io::Write;
use std::path::Path;

/// The lines of a file.
pub fn lines_of(file: &Path) -> Vec<Vec<u8>> {
    let mut bytes = std::fs::read(file).expect("the file can be read");
    if bytes.last() == Some(&b'\n') {
        bytes.pop();
    }
    bytes.split(|&character| character == b'\n').map(|line| line.to_vec()).collect()
}

/// Prints the oracle's answers to the lines of a file.
pub fn print_answers(file: &Path) {
    let batch = Batch::of(&lines_of(file));
    let answers: String = batch.expected.iter().map(|expected| expected.text.as_str()).collect();
    std::io::stdout().write_all(answers.as_bytes()).unwrap();
}

/// The run of a seed, without lines that are no plain text: they change nothing.
fn run(seed: u64) -> Batch {
    let mut batch = Batch::new();
    let mut generator = Generator::new(seed, seed % 4 == 0);
    while let Some(line) = generator.next(&batch.oracle) {
        if line.iter().all(|character| character.is_ascii_graphic()) && batch.lines.len() < 1500 {
            batch.push(line);
        }
    }
    batch
}

/// The size of a run with its answers.
fn size(batch: &Batch) -> usize {
    batch.lines.iter().map(|line| line.len()).sum::<usize>()
        + batch.expected.iter().map(|expected| expected.text.len()).sum::<usize>()
}

/// What of a list came in a run.
fn brought(batch: &Batch, list: &[&'static str]) -> Vec<&'static str> {
    list.iter().copied().filter(|what| batch.oracle.coverage.of(what) > 0).collect()
}

/// The shortest beginning of a run in which all of a list comes.
fn beginning(batch: &Batch, list: &[&'static str]) -> Batch {
    let mut short = Batch::new();
    for line in &batch.lines {
        if brought(&short, list).len() == list.len() {
            break;
        }
        short.push(line.clone());
    }
    short
}

/// Prints lines of a few runs in which everything wanted comes: again and again the run that brings most for its size. What
/// comes before their starts goes first, where nothing is started. Behind them the runs that tell faults apart, and what comes in
/// those is not looked for.
pub fn print_lines() {
    let runs: Vec<Batch> = (1..=3000).map(run).collect();
    let telling = Batch::of(&full_width::lines());
    let brought_there = brought(&telling, WANTED);
    let mut missing: Vec<_> = WANTED.iter().copied().filter(|what| !brought_there.contains(what)).collect();
    let (mut before, mut behind) = (Vec::new(), Vec::new());
    while !missing.is_empty() {
        let worth = |batch: &Batch| brought(batch, &missing).len() as f64 / size(batch) as f64;
        let best = runs.iter().max_by(|a, b| worth(a).total_cmp(&worth(b))).unwrap();
        let news = brought(best, &missing);
        if news.is_empty() {
            break;
        }
        let batch = beginning(best, &news);
        // Only a start gets 0 where nothing is started.
        let start = batch.expected.iter().position(|expected| expected.text == "0\n").unwrap_or(batch.lines.len());
        before.extend_from_slice(&batch.lines[..start]);
        behind.extend_from_slice(&batch.lines[start..]);
        missing.retain(|what| !news.contains(what));
    }
    behind.extend(telling.lines);
    for line in before.iter().chain(&behind) {
        println!("{}", std::str::from_utf8(line).unwrap());
    }
    eprintln!("{} lines; missing: {}", before.len() + behind.len(), missing.join(", "));
}

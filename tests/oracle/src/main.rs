//! Compares the proved engine with the Rust's link on the same calls.
use oracle::comparison::Comparison;
use oracle::subject::Subject;
use oracle::{caught, faults, store};
use std::path::Path;

/// How it is called.
const USAGE: &str = "oracle answers FILE | faults FILE | store | all SECONDS SEED LENGTH SUBJECT... | seed SEED SUBJECT... | \
                     short LENGTH SUBJECT... | file FILE SUBJECT...; a SUBJECT is `link`, or the path of a runner";

fn main() {
    caught::silence();
    let args: Vec<String> = std::env::args().skip(1).collect();
    let args: Vec<&str> = args.iter().map(|arg| arg.as_str()).collect();
    let number = |text: &str| text.parse::<u64>().expect(USAGE);
    let compare = |words: &[&str]| Comparison::new(words.iter().map(|word| Subject::named(word)).collect());
    match args[..] {
        ["answers", file] => store::print_answers(Path::new(file)),
        ["faults", file] => faults::print_told(Path::new(file)),
        ["store"] => store::print_lines(),
        ["all", seconds, seed, length, ref subjects @ ..] if !subjects.is_empty() => {
            let mut comparison = compare(subjects);
            comparison.largest();
            comparison.short(number(length) as usize);
            comparison.fixed_seeds();
            comparison.fresh_seeds(number(seed), number(seconds));
            comparison.finish(true);
        }
        ["seed", seed, ref subjects @ ..] if !subjects.is_empty() => {
            let mut comparison = compare(subjects);
            comparison.seed(number(seed));
            comparison.finish(false);
        }
        ["short", length, ref subjects @ ..] if !subjects.is_empty() => {
            let mut comparison = compare(subjects);
            comparison.short(number(length) as usize);
            comparison.finish(false);
        }
        ["file", file, ref subjects @ ..] if !subjects.is_empty() => {
            let mut comparison = compare(subjects);
            comparison.file(Path::new(file));
            comparison.finish(false);
        }
        _ => {
            eprintln!("{USAGE}");
            std::process::exit(2);
        }
    }
}

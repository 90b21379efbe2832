//! Compares the proved leaves with the Rust that they were translated from, function by function.
mod act;
#[allow(dead_code, reason = "the oracle uses the rest")]
#[path = "../bits.rs"]
mod bits;
#[path = "../caught.rs"]
mod caught;
#[allow(dead_code, reason = "the oracle uses the rest")]
#[path = "../check_sequence.rs"]
mod check_sequence;
mod checks;
mod exports;
mod fields;
mod frames;
#[allow(dead_code, reason = "the other comparisons use the rest")]
#[path = "../prng.rs"]
mod prng;
mod receipts;
mod report;
mod times;
mod windows;

use prng::Prng;

fn main() {
    caught::silence();
    let seed = std::env::args().nth(1).and_then(|text| text.parse().ok()).expect("leaves SEED");
    println!("leaves with seed {seed}");
    let mut prng = Prng::new(seed);
    let mut is_same = fields::compare();
    is_same &= windows::compare(&mut prng);
    is_same &= frames::compare(&mut prng);
    is_same &= checks::compare(&mut prng);
    is_same &= times::compare(&mut prng);
    is_same &= receipts::compare();
    std::process::exit(!is_same as i32);
}

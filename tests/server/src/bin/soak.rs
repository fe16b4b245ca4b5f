//! Random histories for so many seconds: `soak SECONDS [SEED]`. Words of each last state are changed, one at a time, and the answers compared with
//! the oracle's. Prints the shortest calls at which the two servers differ, or the change that is answered wrongly, and ends with 1.
use reference::random::Random;
use server::coverage::Coverage;
use server::history::{run, shortened};
use server::sweep::{sweep, Effort, Tally};
use std::process::exit;
use std::time::{Duration, Instant};

/// So many words of each part, and values of each word, are tried in one state.
const CHANGES: Effort = Effort {
    words: 24,
    values: 24,
    ..Effort::TELLING
};

fn usage() -> ! {
    eprintln!("usage: soak SECONDS [SEED]");
    exit(2)
}

fn main() {
    let numbers: Option<Vec<u64>> = std::env::args()
        .skip(1)
        .map(|word| word.parse().ok())
        .collect();
    let (seconds, mut seed) = match numbers.as_deref() {
        Some([seconds]) => (*seconds, 0),
        Some([seconds, seed]) => (*seconds, *seed),
        _ => usage(),
    };
    let began = Instant::now();
    let first = seed;
    let mut coverage = Coverage::default();
    let mut tally = Tally::default();
    let mut calls = 0;
    while began.elapsed() < Duration::from_secs(seconds) {
        match run(seed) {
            Ok(history) => {
                coverage.add(&history.pair.coverage);
                calls += history.calls.len();
                match sweep(&history.pair.proved, CHANGES, &mut Random::new(seed)) {
                    Ok(more) => tally.add(&more),
                    Err(what) => {
                        println!("seed {seed}, {:?}: {what}", history.start);
                        exit(1);
                    }
                }
            }
            Err(failure) => {
                print!("{}", shortened(failure));
                exit(1);
            }
        }
        seed += 1;
    }
    print!("{coverage}");
    print!("{tally}");
    println!(
        "seeds {first} to {}: {calls} calls, no difference",
        seed - 1
    );
}

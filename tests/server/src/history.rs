//! Histories of random calls from a seed, and the shortest one that still shows a difference.
use crate::author::Author;
use crate::call::Call;
use crate::pair::{Pair, Start};
use reference::random::Random;
use reference::server::Sizes;
use std::fmt;

/// Calls at which the two servers differ.
#[derive(Debug)]
pub struct Failure {
    pub seed: u64,
    pub start: Start,
    pub calls: Vec<Call>,
    pub what: String,
}

impl fmt::Display for Failure {
    fn fmt(&self, f: &mut fmt::Formatter) -> fmt::Result {
        writeln!(f, "seed {}: {}", self.seed, self.what)?;
        writeln!(f, "{:?}", self.start)?;
        for call in &self.calls {
            writeln!(f, "  {call}")?;
        }
        Ok(())
    }
}

/// Legal sizes, the smallest and the largest often.
pub fn sizes(random: &mut Random) -> Sizes {
    let blocks = match random.below(8) {
        0 => *random.pick(&[1, 2, 63, 64, 65, 4095, 4096]),
        1 => random.between(1, 20),
        2 => random.between(1, 4096),
        _ => random.between(20, 600),
    };
    let files = match random.below(6) {
        0 => *random.pick(&[1, 2, 255, 256]),
        1 => random.between(1, 10),
        2 => random.between(1, 256),
        _ => random.between(10, 80),
    };
    let maxsel = match random.below(4) {
        0 => 1,
        1 => random.between(1, 5),
        2 => 50,
        _ => random.between(1, 50),
    };
    Sizes {
        blocks,
        files,
        sessions: random.between(1, 4),
        maxsel,
    }
}

/// Mostly the empty store; now and then the last numbers are near.
fn start(random: &mut Random) -> Start {
    let near = |random: &mut Random| match random.below(25) {
        0 => u32::MAX - random.below(6) as u32,
        _ => 0,
    };
    Start {
        sizes: sizes(random),
        last_number: near(random),
        last_time: near(random),
        longer: *random.pick(&[0, 0, 1, 3]),
    }
}

/// The calls of a seed, and the servers after them.
pub struct History {
    pub start: Start,
    pub calls: Vec<Call>,
    pub pair: Pair,
}

/// Runs the history of a seed to its end.
pub fn run(seed: u64) -> Result<History, Box<Failure>> {
    let mut random = Random::new(seed);
    let start = start(&mut random);
    let length = *random.pick(&[60, 200, 400, 400, 1500]);
    run_from(seed, start, length, random, |_| ())
}

/// Runs so many calls from a start, and looks at the servers after each.
pub fn run_from(
    seed: u64,
    start: Start,
    length: usize,
    random: Random,
    mut look: impl FnMut(&Pair),
) -> Result<History, Box<Failure>> {
    let mut author = Author::new(random);
    let mut pair = Pair::new(start);
    let mut calls = Vec::new();
    for _ in 0..length {
        let call = author.next(&pair.second);
        calls.push(call.clone());
        match pair.call(&call) {
            Ok(answer) => author.heard(&call, &answer, &pair.second),
            Err(what) => {
                return Err(Box::new(Failure {
                    seed,
                    start,
                    calls,
                    what,
                }))
            }
        }
        look(&pair);
    }
    Ok(History { start, calls, pair })
}

/// The same, for tests: a difference is printed with as few calls as can be, and fails.
pub fn run_same(seed: u64) -> History {
    run(seed).unwrap_or_else(|failure| panic!("{}", shortened(failure)))
}

/// The first difference that these calls show, and after how many of them.
fn difference(start: Start, calls: &[Call]) -> Option<(usize, String)> {
    let mut pair = Pair::new(start);
    for (index, call) in calls.iter().enumerate() {
        if let Err(what) = pair.call(call) {
            return Some((index + 1, what));
        }
    }
    None
}

/// The failure with as many calls left out as can be, one run of calls at a time.
pub fn shortened(mut failure: Box<Failure>) -> Box<Failure> {
    let mut run = failure.calls.len();
    while run > 0 {
        let mut from = 0;
        while from < failure.calls.len() {
            let mut fewer = failure.calls.clone();
            fewer.drain(from..(from + run).min(fewer.len()));
            match difference(failure.start, &fewer) {
                Some((made, what)) => {
                    fewer.truncate(made);
                    failure.calls = fewer;
                    failure.what = what;
                }
                None => from += run,
            }
        }
        run /= 2;
    }
    failure
}

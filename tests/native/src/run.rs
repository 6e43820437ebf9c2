//! Runs over many inputs: so many of each source, or as many as a time allows.

use crate::input::Source;
use crate::rounds::lists;
use crate::tally::Tally;
use std::time::{Duration, Instant};

#[derive(Clone, Copy, Debug)]
pub enum Amount {
    Inputs(u64),
    Time(Duration),
}

/// The seed of the environment (NATIVE_SEED), or the usual one; printed, so that a failure can be
/// run again.
pub fn seed() -> u64 {
    let seed = variable("NATIVE_SEED").unwrap_or(20_261);
    println!("NATIVE_SEED={seed}");
    seed
}

/// The usual number of inputs, unless the environment gives a time in seconds (NATIVE_SECONDS).
pub fn amount(usual: u64) -> Amount {
    let seconds = variable("NATIVE_SECONDS").map(Duration::from_secs);
    seconds.map_or(Amount::Inputs(usual), Amount::Time)
}

/// Whether the environment gives a time: a short one covers less than the usual run has to.
pub fn timed() -> bool {
    variable("NATIVE_SECONDS").is_some()
}

fn variable(name: &str) -> Option<u64> {
    std::env::var(name).ok()?.parse().ok()
}

/// Inputs of one source, the first of them at index `first`. Panics with the smallest case found
/// where the two sides disagree.
pub fn run(source: Source, seed: u64, first: u64, amount: Amount) -> Tally {
    let start = Instant::now();
    let mut tally = Tally::default();
    for index in first.. {
        let ended = match amount {
            Amount::Inputs(count) => index - first >= count,
            Amount::Time(time) => start.elapsed() >= time,
        };
        if ended {
            break;
        }
        lists::round(source, seed, index, &mut tally).unwrap_or_else(|error| panic!("{error}"));
    }
    tally
}

/// As many rounds as usual or as the environment asks for, each by its index.
pub fn rounds(usual: u64, mut round: impl FnMut(u64)) {
    let start = Instant::now();
    let amount = amount(usual);
    let more = |index: u64| match amount {
        Amount::Inputs(count) => index < count,
        Amount::Time(time) => start.elapsed() < time,
    };
    (0..).take_while(|index| more(*index)).for_each(&mut round);
}

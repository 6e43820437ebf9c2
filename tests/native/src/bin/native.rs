//! `native [SEED [CALLS [SECONDS]]]`: all sources by turns, from index 0 of a seed, until so many calls are made or the time is
//! over, with what was covered at the end and every two minutes on the way. It ends with 1 at the first difference, which it prints,
//! made smaller.

use compare::draw::on_a_large_stack;
use native::day::Exports;
use native::input::{Source, SOURCES};
use native::rounds::{days, lists, states, Counts};
use native::tally::Tally;
use std::process::exit;
use std::time::{Duration, Instant};

fn main() {
    let mut arguments = std::env::args().skip(1).map(|argument| argument.parse());
    let mut next = |usual| arguments.next().and_then(Result::ok).unwrap_or(usual);
    let (seed, calls, seconds) = (next(1), next(u64::MAX), next(60));
    println!("seed {seed}, {seconds} seconds");
    if let Err(difference) = on_a_large_stack(|| run(seed, calls, Duration::from_secs(seconds))) {
        println!("{difference}\n1 difference");
        exit(1);
    }
}

fn run(seed: u64, calls: u64, time: Duration) -> Result<(), String> {
    let (mut lists, mut others) = (Tally::default(), Counts::default());
    let (start, mut told) = (Instant::now(), Duration::ZERO);
    for index in 0.. {
        if start.elapsed() >= time || lists.calls() + others.all() >= calls {
            println!("seed {seed}, {index} turns");
            break;
        }
        turn(seed, index, &mut lists, &mut others)?;
        if start.elapsed() >= told + Duration::from_secs(120) {
            told = start.elapsed();
            println!("after {} seconds {index} turns: {}", told.as_secs(), all(&lists, &others));
        }
    }
    println!("{}\n{lists}\n0 differences", all(&lists, &others));
    Ok(())
}

/// An input of every source; of those that take long, one now and then.
fn turn(seed: u64, index: u64, lists: &mut Tally, others: &mut Counts) -> Result<(), String> {
    for source in SOURCES {
        let every = match source {
            Source::Filling => 16,
            Source::Ceilings => 3,
            _ => 1,
        };
        if index % every == 0 {
            lists::round(source, seed, index / every, lists)?;
        }
    }
    states::of_states(seed, index, others)?;
    if index % 32 == 0 {
        states::of_wide(seed, index / 32, others)?;
    }
    texts(seed, index, others)?;
    days::round(&mut Exports, seed, index, others)?;
    days::openings(&mut Exports, seed, index, others)
}

fn texts(seed: u64, index: u64, others: &mut Counts) -> Result<(), String> {
    use native::rounds::{books, editions, lines, pages, qdimacs};
    books::round(seed, index, others)?;
    books::onto_slices(seed, index, others)?;
    lines::round(seed, index, others)?;
    qdimacs::round(seed, index, others)?;
    editions::round(seed, index, others)?;
    pages::round(seed, index, others)
}

fn all(lists: &Tally, others: &Counts) -> Counts {
    let mut all = others.clone();
    all.add(lists);
    all
}

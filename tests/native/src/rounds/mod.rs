//! Rounds of the comparison: each draws an input of its kind from a seed and an index, and gives it to both sides. An error
//! tells the smallest input found where they differ.

pub mod days;
pub mod lists;
pub mod states;

pub mod books;
pub mod editions;
pub mod lines;
pub mod pages;
pub mod qdimacs;

use crate::generate::Book;
use crate::tally::Tally;
use compare::random::Random;
use compare::{Call, Limits, Said};
use std::collections::BTreeMap;
use std::fmt;

/// What a run has covered.
#[derive(Clone, Debug, Default)]
pub struct Counts {
    /// Inputs by their source.
    pub inputs: BTreeMap<&'static str, u64>,
    /// Calls by their kind.
    pub calls: BTreeMap<&'static str, u64>,
    /// Refusals by number.
    pub refusals: BTreeMap<u16, u64>,
    pub visits: u64,
}

impl Counts {
    pub fn input(&mut self, source: &'static str) {
        *self.inputs.entry(source).or_default() += 1;
    }

    pub fn call(&mut self, kind: &'static str, refusal: u16) {
        *self.calls.entry(kind).or_default() += 1;
        if refusal > 0 {
            *self.refusals.entry(refusal).or_default() += 1;
        }
    }

    pub fn answer(&mut self, call: &Call, said: Said, visits: u64) {
        let refusal = if let Said::Refused(number) = said { number.into() } else { 0 };
        self.call(kind(call), refusal);
        self.visits += visits;
    }

    /// Lists of calls, as they were counted.
    pub fn add(&mut self, lists: &Tally) {
        for (kind, more) in &lists.asked {
            *self.calls.entry(kind).or_default() += more;
        }
        for (number, more) in &lists.refusals {
            *self.refusals.entry((*number).into()).or_default() += more;
        }
        *self.inputs.entry("lists of calls").or_default() += lists.lists;
        self.visits += lists.visits;
    }

    pub fn all(&self) -> u64 {
        self.calls.values().sum()
    }

    pub fn has(&self, refusals: &[u16]) -> bool {
        refusals.iter().all(|number| self.refusals.contains_key(number))
    }
}

impl fmt::Display for Counts {
    fn fmt(&self, f: &mut fmt::Formatter) -> fmt::Result {
        writeln!(f, "{} calls, {} visits", self.all(), self.visits)?;
        writeln!(f, "  by kind {:?}", self.calls)?;
        writeln!(f, "  inputs {:?}", self.inputs)?;
        write!(f, "  refusals by number {:?}", self.refusals)
    }
}

pub fn kind(call: &Call) -> &'static str {
    match call {
        Call::Rule(_) => "rule",
        Call::One(_) => "one",
        Call::Withdraw => "withdraw",
        Call::Forget => "forget",
        Call::Query(_) => "query",
        Call::Card(_) => "card",
        Call::KeepCard(_) => "keep card",
        Call::Closest(..) => "closest",
        Call::Write(_) => "write",
    }
}

/// Numbers of one's own for each input of a source.
pub fn numbers(seed: u64, source: u64, index: u64) -> Random {
    Random::new(seed.wrapping_mul(0x5851_F42D_4C95_7F2D) ^ index.wrapping_mul(16) ^ source)
}

/// Limits under which a text of a book is opened: those that hold it, one less, the usual ones, or the highest and above.
pub fn limits_near(book: &Book, random: &mut Random) -> (usize, usize) {
    let Limits { numbers, clauses, .. } = book.limits;
    let own = (numbers as usize, clauses);
    match random.below(8) {
        0 => (own.0.saturating_sub(1), own.1),
        1 => (own.0, own.1.saturating_sub(1)),
        2 => (40, 255),
        3 if random.one_in(8) => {
            random.pick(&[(1_000, 4_000), (1_001, 4_001), (usize::MAX, usize::MAX), (0, 0)])
        }
        _ => own,
    }
}

/// A text without any line, and then without any byte, that it need not have to differ.
pub fn smallest_text(mut text: Vec<u8>, differs: impl Fn(&[u8]) -> bool) -> Vec<u8> {
    for of_lines in [true, false] {
        let mut at = 0;
        while at < text.len() && text.len() < 20_000 {
            let rest = &text[at..];
            let line =
                rest.iter().position(|&byte| byte == b'\n').map_or(rest.len(), |end| end + 1);
            let length = if of_lines { line } else { 1 };
            let shorter = [&text[..at], &text[at + length..]].concat();
            if differs(&shorter) {
                text = shorter;
            } else {
                at += length;
            }
        }
    }
    text
}

/// The beginning of a text, to be printed.
pub fn shown(text: &[u8]) -> String {
    String::from_utf8_lossy(&text[..text.len().min(4_000)]).into_owned()
}

//! Calls and answers, in a form that every implementation under comparison can fill in.

use crate::closest::Closest;
use crate::formula::Literal;
use crate::reading::Reading;
use std::fmt;

#[derive(Clone, Debug, PartialEq, Eq)]
pub enum Call {
    Rule(Vec<Literal>),
    /// Exactly one of these literals is true.
    One(Vec<Literal>),
    /// The rule added last goes.
    Withdraw,
    /// The free variables that are on, and those that are off; the others are open.
    Query(Reading),
    /// The length of the lent card table.
    Card(usize),
    /// The same, for the card of the readings that are kept.
    KeepCard(usize),
    /// A full reading, and the length of the table that the card is written to.
    Closest(Reading, usize),
    Forget,
    /// The length of the table that the book's text is written to.
    Write(usize),
}

impl Call {
    /// Whether it takes a ceiling: "query and either card", and the closest reading's card is "made under a
    /// ceiling".
    pub fn searches(&self) -> bool {
        matches!(self, Call::Query(_) | Call::Card(_) | Call::KeepCard(_) | Call::Closest(..))
    }

    /// The lists of numbers that it has.
    pub fn lists_mut(&mut self) -> Vec<&mut Vec<i16>> {
        match self {
            Call::Rule(list) | Call::One(list) => vec![list],
            Call::Query(Reading { on, off }) | Call::Closest(Reading { on, off }, _) => {
                vec![on, off]
            }
            _ => vec![],
        }
    }

    /// All of its numbers.
    pub fn numbers(&self) -> Vec<i16> {
        match self {
            Call::Rule(list) | Call::One(list) => list.clone(),
            Call::Query(reading) | Call::Closest(reading, _) => reading.numbers(),
            _ => vec![],
        }
    }

    /// The bytes of the table that it lends.
    pub fn table(&self) -> usize {
        match self {
            Call::Card(length) | Call::KeepCard(length) => *length,
            Call::Closest(_, length) | Call::Write(length) => *length,
            _ => 0,
        }
    }
}

#[derive(Clone, Copy, Debug, PartialEq, Eq)]
pub enum Said {
    Refused(u8),
    Added,
    Withdrawn,
    Swap,
    Keep,
    /// Some completions of a reading are swaps, and some are not.
    Unsettled,
    /// The count of lines.
    Lines(usize),
    Closest(Closest),
    Forgotten,
    /// The length of the text.
    Written(usize),
}

#[derive(Clone, Debug, PartialEq, Eq)]
pub struct Answer {
    pub said: Said,
    /// Every byte of the lent table after a card or a written book; empty for the other calls.
    pub table: Vec<u8>,
    pub visits: u64,
}

impl Answer {
    pub fn new(said: Said) -> Answer {
        Answer { said, table: vec![], visits: 0 }
    }

    /// Demand 3's equality with the plain run: everything but the visits.
    pub fn same_reply(&self, other: &Answer) -> bool {
        self.said == other.said && self.table == other.table
    }
}

/// Whatever answers calls one after another: this implementation, the plain run, or a library
/// that is compared with them.
pub trait Subject {
    /// A call under a ceiling on visits, which only searches have: "query and either card take a ceiling on
    /// visits, any unsigned 32-bit number".
    fn call_within(&mut self, call: &Call, ceiling: u32) -> Answer;

    fn call(&mut self, call: &Call) -> Answer {
        self.call_within(call, HIGHEST_CEILING)
    }

    fn run(&mut self, calls: &[Call]) -> Vec<Answer> {
        calls.iter().map(|call| self.call(call)).collect()
    }
}

/// A ceiling that stops no search here: none makes so many visits.
pub const HIGHEST_CEILING: u32 = u32::MAX;

/// What a lent table holds before a call writes to it: no byte that a line or a text can have.
pub const LENT_BYTE: u8 = 0xA5;

impl fmt::Display for Call {
    fn fmt(&self, f: &mut fmt::Formatter) -> fmt::Result {
        match self {
            Call::Rule(literals) => write!(f, "rule {literals:?}"),
            Call::One(literals) => write!(f, "one {literals:?}"),
            Call::Withdraw => write!(f, "withdraw"),
            Call::Query(reading) => write!(f, "query {reading}"),
            Call::Card(length) => write!(f, "card into {length} bytes"),
            Call::KeepCard(length) => write!(f, "keep card into {length} bytes"),
            Call::Closest(reading, length) => {
                write!(f, "closest to {reading}, card into {length} bytes")
            }
            Call::Forget => write!(f, "forget"),
            Call::Write(length) => write!(f, "write into {length} bytes"),
        }
    }
}

impl fmt::Display for Answer {
    fn fmt(&self, f: &mut fmt::Formatter) -> fmt::Result {
        match self.said {
            Said::Refused(number) => write!(f, "refused {number}")?,
            Said::Added => write!(f, "added")?,
            Said::Withdrawn => write!(f, "withdrawn")?,
            Said::Swap => write!(f, "swap")?,
            Said::Keep => write!(f, "keep")?,
            Said::Unsettled => write!(f, "unsettled")?,
            Said::Lines(count) => write!(f, "{count} line(s)")?,
            Said::Closest(Closest { reading, differs, lines }) => {
                write!(f, "{reading:?} differs in {differs}, {lines} line(s)")?
            }
            Said::Forgotten => write!(f, "forgotten")?,
            Said::Written(length) => write!(f, "{length} byte(s)")?,
        }
        if !self.table.is_empty() {
            write!(f, ", table {:?}", self.table)?;
        }
        Ok(())
    }
}

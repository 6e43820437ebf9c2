//! Refusals: their numbers, and what each means.

use std::error::Error;
use std::fmt;

/// Each refusal once: its name, its number and its meaning, which is its documentation too.
macro_rules! refusals {
    ($($name:ident = $number:literal: $meaning:literal,)*) => {
        /// Why a text or a call is refused. The numbers are those of `docs/FORMAT.md`.
        #[derive(Clone, Copy, Debug, PartialEq, Eq, Hash)]
        #[non_exhaustive]
        pub enum Refusal {
            $(#[doc = $meaning] $name,)*
            /// A number that this crate has no name for.
            Other(u16),
        }

        impl Refusal {
            /// The refusal of a number.
            pub fn of(number: u16) -> Refusal {
                match number {
                    $($number => Refusal::$name,)*
                    other => Refusal::Other(other),
                }
            }

            /// Its number.
            pub fn number(self) -> u16 {
                match self {
                    $(Refusal::$name => $number,)*
                    Refusal::Other(number) => number,
                }
            }

            /// Its meaning in a few words.
            pub fn meaning(self) -> &'static str {
                match self {
                    $(Refusal::$name => $meaning,)*
                    Refusal::Other(_) => "a refusal without a name here",
                }
            }
        }
    };
}

refusals! {
    NotInLayout = 1: "not in the layout, or a line where it may not stand",
    Edition = 2: "the edition is not one that is read, or converted from",
    NumberRange = 3: "a number that is not 1 to the limit for numbers",
    DeclaredTwice = 4: "a variable declared twice",
    NotDeclared = 5: "a variable that is not declared",
    VariableTwice = 6: "a variable twice in one rule",
    RuleLength = 7: "a rule without a literal, an exactly-one form with fewer than two, or either with more than 16",
    NoFlag = 8: "a reading names a variable that is no flag, or one twice; a closest reading leaves a flag open",
    TextTooLong = 9: "a text over 65,536 bytes",
    RulesFull = 20: "more rules than the limit for rules",
    TableTooSmall = 21: "the card has more lines than its table holds",
    Malformed = 22: "no book stands in these tables, or they are too short for its limits",
    ClauseCount = 30: "a QDIMACS text has not as many clauses as its header says",
    TextTableTooShort = 31: "a text or a page is longer than its table",
    NoRule = 32: "a withdrawal where no rule stands",
    TooManyFlags = 33: "more than 40 flags",
    Stopped = 34: "the search needs more visits than its ceiling",
    NoLine = 35: "a closest reading's card has no line",
    NoPage = 36: "a page that the card does not have",
    StoppedByShare = 37: "the search needs more visits than are left at its place of a day",
    NoBook = 38: "no book at this place of a day, or no such place",
    TagRange = 39: "a tag that is not 1 to 65,535",
    TagLost = 40: "a tag that would be lost: it is not its rule's number among the rules",
}

/// A refused text or call. What was asked for did not happen, and the book is as it was; only after 21,
/// 34, 35 and 37, where a search ran, does it keep what was learned.
#[derive(Clone, Copy, Debug, PartialEq, Eq, Hash)]
pub struct Refused {
    /// Why.
    pub refusal: Refusal,
    /// The line of a text, from 1; 0 where no line is at fault, and for a call.
    pub line: usize,
    /// The visits of a search that ran: with 21, 34, 35 and 37, else 0.
    pub visits: u64,
}

impl Refused {
    /// Nothing where the number is 0, which is no refusal.
    pub(crate) fn unless_none(number: u16, line: usize, visits: u64) -> Result<(), Refused> {
        match number {
            0 => Ok(()),
            _ => Err(Refused { refusal: Refusal::of(number), line, visits }),
        }
    }
}

impl fmt::Display for Refusal {
    fn fmt(&self, f: &mut fmt::Formatter) -> fmt::Result {
        write!(f, "{}: {}", self.number(), self.meaning())
    }
}

impl fmt::Display for Refused {
    fn fmt(&self, f: &mut fmt::Formatter) -> fmt::Result {
        write!(f, "refused with {}", self.refusal)?;
        match self.line {
            0 => Ok(()),
            line => write!(f, " (line {line})"),
        }
    }
}

impl Error for Refused {}

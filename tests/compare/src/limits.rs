//! Paper 02, wish 8: "A book is opened with its own limits for numbers and rules, capped at these": the two arguments
//! of the programs, and mistakes in own limits that can be switched in.

use crate::cases::Program;
use crate::layout;
use crate::options::Limits;

/// Mistakes that can be switched in.
#[derive(Clone, Copy, Debug, PartialEq, Eq)]
pub enum LimitSlip {
    // 3 and 20.
    NumbersByTheCap,
    RulesByTheCap,
    NumbersByThePaper,
    RulesByThePaper,
    // 33.
    FlagsNotCounted,
    FlagsOneLess,
    FlagsBeforeRange,
    FlagsBeforeTwice,
    HeaderCountsFlags,
    FlagsAtFirstClause,
    FlagsAfterCount,
    // The programs' arguments.
    ArgumentsIgnored,
    ArgumentsExchanged,
    OneArgumentTaken,
    MoreArgumentsTaken,
    AnyDigitsTaken,
    // States: 22, and where their entries stand.
    StateByTheCap,
    LimitsNotJudged,
    FlagsNotJudged,
    ShortCellsTaken,
    ShortLiteralsTaken,
    LongTablesRefused,
    EntriesAsWideAsThePaper,
    EntriesAsWideAsTheCap,
}

use LimitSlip::*;

pub const ALL: &[(LimitSlip, &str)] = &[
    (NumbersByTheCap, "3 reads the cap of 1,000 and not the own limit"),
    (RulesByTheCap, "20 reads the cap of 4,000 and not the own limit"),
    (NumbersByThePaper, "3 reads 40 and not the own limit"),
    (RulesByThePaper, "20 reads 255 and not the own limit"),
    (FlagsNotCounted, "a 41st flag is taken"),
    (FlagsOneLess, "33 for a 40th flag"),
    (FlagsBeforeRange, "33 before 3"),
    (FlagsBeforeTwice, "33 before 4"),
    (HeaderCountsFlags, "33 for a header count above 40, whatever the quantifier lines say"),
    (FlagsAtFirstClause, "33 at the first clause of QDIMACS and not at the end"),
    (FlagsAfterCount, "33 after 30"),
    (ArgumentsIgnored, "the arguments are not used"),
    (ArgumentsExchanged, "the first argument is the limit for rules"),
    (OneArgumentTaken, "one argument is the limit for numbers"),
    (MoreArgumentsTaken, "a third argument is skipped"),
    (AnyDigitsTaken, "an argument may have leading zeros and a sign"),
    (StateByTheCap, "22 reads the caps and not the state's own limits"),
    (LimitsNotJudged, "22 misses limits above the caps"),
    (FlagsNotJudged, "22 misses a 41st flag"),
    (ShortCellsTaken, "22 misses that the cells of a state are too few"),
    (ShortLiteralsTaken, "22 misses that the literals of a state are too few"),
    (LongTablesRefused, "22 for tables longer than the limits ask"),
    (EntriesAsWideAsThePaper, "stored entries are 40 cells wide and not as wide as the own limit"),
    (EntriesAsWideAsTheCap, "stored entries are 1,000 cells wide and not as wide as the own limit"),
];

impl LimitSlip {
    /// Whether only a state that no text opens, or its tables, can show it.
    pub fn is_of_states(self) -> bool {
        matches!(
            self,
            StateByTheCap
                | LimitsNotJudged
                | FlagsNotJudged
                | ShortCellsTaken
                | ShortLiteralsTaken
                | LongTablesRefused
                | EntriesAsWideAsThePaper
                | EntriesAsWideAsTheCap
        )
    }
}

/// "two optional arguments, the limits for numbers and rules under which its text is opened .. without them 40 and
/// 255. They have digits as in a text." Not capped yet. None: `usage`.
pub fn arguments(given: &[String], slip: Option<LimitSlip>) -> Option<(usize, usize)> {
    let usual = (Limits::PAPER.numbers as usize, Limits::PAPER.clauses);
    let number = |digits: &String| match slip {
        Some(AnyDigitsTaken) => digits.parse().ok(),
        _ => layout::number(digits.as_bytes()).map(|number| number as usize),
    };
    match given {
        [] => Some(usual),
        [numbers] if slip == Some(OneArgumentTaken) => Some((number(numbers)?, usual.1)),
        [numbers, rules] => {
            let (numbers, rules) = (number(numbers)?, number(rules)?);
            Some(match slip {
                Some(ArgumentsIgnored) => usual,
                Some(ArgumentsExchanged) => (rules, numbers),
                _ => (numbers, rules),
            })
        }
        [numbers, rules, ..] if slip == Some(MoreArgumentsTaken) => {
            Some((number(numbers)?, number(rules)?))
        }
        _ => None,
    }
}

/// "Anything else as arguments prints one line that begins with `usage:` and reads nothing."
pub fn usage(program: Program) -> String {
    format!("usage: {} [NUMBERS RULES]\n", program.name())
}

/// The limits that a program was started with; none where its usage is printed instead.
pub fn of_this_program(program: Program) -> Option<Limits> {
    let given: Option<Vec<String>> =
        std::env::args_os().skip(1).map(|argument| argument.into_string().ok()).collect();
    let limits = given.and_then(|given| arguments(&given, None));
    let limits = limits.map(|(numbers, rules)| Limits::own(numbers, rules));
    if limits.is_none() {
        print!("{}", usage(program));
    }
    limits
}

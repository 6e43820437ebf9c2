//! The limits of a solver and the slip that is switched into it.

use crate::limits::LimitSlip;
use crate::slip::Slip;

/// The paper's limits. They are data, so that small ones can be run as well.
#[derive(Clone, Copy, Debug, PartialEq, Eq)]
pub struct Limits {
    /// Largest number of a variable.
    pub numbers: i16,
    /// How many clauses a formula holds.
    pub clauses: usize,
    /// How many literals a clause holds.
    pub literals: usize,
    /// How many learned entries of each polarity the store holds.
    pub entries: usize,
}

impl Limits {
    pub const PAPER: Limits = Limits { numbers: 40, clauses: 255, literals: 16, entries: 64 };

    /// Paper 02, wish 8: "Variable numbers run to 1,000, rules to 4,000".
    pub const HIGHEST: Limits = Limits { numbers: 1_000, clauses: 4_000, ..Limits::PAPER };

    /// "A book is opened with its own limits for numbers and rules, capped at these".
    pub fn own(numbers: usize, clauses: usize) -> Limits {
        let most = Limits::HIGHEST;
        let numbers = numbers.min(most.numbers as usize) as i16;
        Limits { numbers, clauses: clauses.min(most.clauses), ..most }
    }

    /// "(a state with higher ones is 22)".
    pub fn too_high(&self) -> bool {
        self.numbers > Limits::HIGHEST.numbers || self.clauses > Limits::HIGHEST.clauses
    }
}

/// "flags stay at most 40".
pub const MOST_FLAGS: usize = 40;

/// What a solver is run with.
#[derive(Clone, Copy, Debug)]
pub struct Options {
    pub limits: Limits,
    pub slip: Option<Slip>,
    /// A slip in own limits.
    pub of_limits: Option<LimitSlip>,
    /// Whether every call judges its state (refusal 22). Only a slipped solver goes without, so
    /// that a case shows what the slip does to answers and not that its own check notices.
    pub judges_state: bool,
}

impl Options {
    pub fn paper() -> Options {
        Options::with(Limits::PAPER)
    }

    pub fn with(limits: Limits) -> Options {
        Options { limits, slip: None, of_limits: None, judges_state: true }
    }

    pub fn slips(&self, slip: Slip) -> bool {
        self.slip == Some(slip)
    }

    pub fn slips_in_limits(&self, slip: LimitSlip) -> bool {
        self.of_limits == Some(slip)
    }

    /// "number not 1 to 40": the largest number that a rule or declaration may use.
    pub fn largest_number(&self) -> i32 {
        let limit = match self.of_limits {
            Some(LimitSlip::NumbersByTheCap) => Limits::HIGHEST.numbers,
            Some(LimitSlip::NumbersByThePaper) => Limits::PAPER.numbers,
            _ => self.limits.numbers,
        };
        i32::from(limit) - i32::from(self.slips(Slip::NumberLimitOneLess))
    }

    /// "a rule when 255 stand".
    pub fn clause_limit(&self) -> usize {
        let limit = match self.of_limits {
            Some(LimitSlip::RulesByTheCap) => Limits::HIGHEST.clauses,
            Some(LimitSlip::RulesByThePaper) => Limits::PAPER.clauses,
            _ => self.limits.clauses,
        };
        limit - usize::from(self.slips(Slip::ClauseLimitOneLess))
    }

    /// "no literal, or over 16".
    pub fn literal_limit(&self) -> usize {
        self.limits.literals + usize::from(self.slips(Slip::LiteralLimitOneMore))
            - usize::from(self.slips(Slip::LiteralLimitOneLess))
    }

    /// "The store holds 64 bars and 64 passes".
    pub fn capacity(&self) -> usize {
        self.limits.entries + usize::from(self.slips(Slip::CapacityOneMore))
            - usize::from(self.slips(Slip::CapacityOneLess))
    }
}

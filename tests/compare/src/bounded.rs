//! Paper 02, wish 8: a book with its own limits, whose searches have a ceiling on visits.
//!
//! The search under a ceiling and the calls are those of `learning` and `solver`; here are books opened under
//! own limits, and mistakes that can be switched in.

use crate::answer::{Answer, Call, Said, Subject, HIGHEST_CEILING};
use crate::constraint::Polarity;
use crate::learning::LearningSearch;
use crate::options::{Limits, Options};
use crate::qdimacs;
use crate::solver::{Solver, State};
use crate::store::Store;
use crate::table;
use crate::text::{self, TextRefusal};

/// Mistakes that can be switched in.
#[derive(Clone, Copy, Debug, PartialEq, Eq)]
pub enum CeilingSlip {
    NoCeiling,
    OpenQueryUnlimited,
    OneVisitMore,
    OneVisitLess,
    StopsThoughFinished,
    StoreLostAfter34,
    StoreOfTheFullWalk,
    LastJoinsLost,
    TableKeptAfter34,
    LinesKeptAfter34,
    FullBefore34,
    NoVisitsAt34,
    NumbersNotCapped,
    RulesNotCapped,
}

pub const ALL: &[(CeilingSlip, &str)] = &[
    (CeilingSlip::NoCeiling, "the ceiling is ignored"),
    (CeilingSlip::OpenQueryUnlimited, "the ceiling of a query with an open flag is ignored"),
    (CeilingSlip::OneVisitMore, "a search makes one visit more than the ceiling"),
    (CeilingSlip::OneVisitLess, "a search makes one visit less than the ceiling"),
    (CeilingSlip::StopsThoughFinished, "34 for a search that needs exactly the ceiling"),
    (CeilingSlip::StoreLostAfter34, "what a stopped search stored is thrown away"),
    (CeilingSlip::StoreOfTheFullWalk, "a stopped search keeps what the full one would store"),
    (CeilingSlip::LastJoinsLost, "what is joined after the last allowed visit is thrown away"),
    (CeilingSlip::TableKeptAfter34, "the table is not zeroed by 34"),
    (CeilingSlip::LinesKeptAfter34, "the lines of a stopped card are left in the table"),
    (CeilingSlip::FullBefore34, "21 for a stopped card whose table is full already"),
    (CeilingSlip::NoVisitsAt34, "34 reports no visits"),
    (CeilingSlip::NumbersNotCapped, "a limit for numbers above 1,000 is taken as given"),
    (CeilingSlip::RulesNotCapped, "a limit for rules above 4,000 is taken as given"),
];

/// The limits that a book is opened with. "capped at these": no limit is refused.
pub fn limits(numbers: usize, rules: usize, slip: Option<CeilingSlip>) -> Limits {
    let mut limits = Limits::own(numbers, rules);
    match slip {
        Some(CeilingSlip::NumbersNotCapped) => limits.numbers = numbers.min(30_000) as i16,
        Some(CeilingSlip::RulesNotCapped) => limits.clauses = rules,
        _ => {}
    }
    limits
}

/// An opened book and what it is run with.
#[derive(Clone, Debug)]
pub struct Bounded {
    pub solver: Solver,
    pub slip: Option<CeilingSlip>,
}

impl Bounded {
    /// Opens a text under own limits.
    pub fn open(text: &[u8], limits: Limits) -> Result<Bounded, TextRefusal> {
        let options = Options::with(limits);
        let formula = text::open(text, &options)?;
        Ok(Bounded { solver: Solver::opened(formula, options), slip: None })
    }

    /// The same for a QDIMACS text.
    pub fn open_qdimacs(text: &[u8], limits: Limits) -> Result<Bounded, TextRefusal> {
        let options = Options::with(limits);
        let formula = qdimacs::open(text, &options, None)?;
        Ok(Bounded { solver: Solver::opened(formula, options), slip: None })
    }

    fn asks_open(&self, call: &Call) -> bool {
        matches!(call, Call::Query(reading) if !reading.is_full(&self.solver.state.formula))
    }

    /// What a slip makes of a stopped call.
    fn spoil_stopped(&mut self, call: &Call, given: u32, mut before: Solver, answer: &mut Answer) {
        let store = &mut self.solver.state.store;
        match self.slip {
            Some(CeilingSlip::StoreLostAfter34) => *store = before.state.store,
            Some(CeilingSlip::StoreOfTheFullWalk) => {
                before.call_within(call, HIGHEST_CEILING);
                *store = before.state.store;
            }
            Some(CeilingSlip::LastJoinsLost) => *store = until_last_visit(before, call, given),
            Some(CeilingSlip::TableKeptAfter34) => answer.table.fill(0xA5),
            Some(CeilingSlip::LinesKeptAfter34) => leave_lines(before, call, given, answer),
            Some(CeilingSlip::FullBefore34) => {
                let full = before.call_within(call, HIGHEST_CEILING).said == Said::Refused(21);
                answer.said = if full { Said::Refused(21) } else { answer.said };
            }
            Some(CeilingSlip::NoVisitsAt34) => answer.visits = 0,
            _ => {}
        }
    }
}

impl Subject for Bounded {
    fn call_within(&mut self, call: &Call, ceiling: u32) -> Answer {
        use CeilingSlip::*;
        let lowered = match self.slip {
            None => return self.solver.call_within(call, ceiling),
            Some(NoCeiling) => HIGHEST_CEILING,
            Some(OpenQueryUnlimited) if self.asks_open(call) => HIGHEST_CEILING,
            Some(OneVisitMore) => ceiling.saturating_add(1),
            Some(OneVisitLess) => ceiling.saturating_sub(1),
            Some(_) => ceiling,
        };
        let before = self.solver.clone();
        let mut answer = self.solver.call_within(call, lowered);
        let exact = answer.visits == u64::from(ceiling) && ceiling > 0;
        if self.slip == Some(StopsThoughFinished) && exact {
            answer.table.fill(0);
            answer.said = Said::Refused(34);
        }
        if answer.said == Said::Refused(34) {
            self.spoil_stopped(call, ceiling, before, &mut answer);
        }
        answer
    }
}

/// The lines found before a card was stopped, as far as the table holds them.
fn leave_lines(mut before: Solver, call: &Call, ceiling: u32, answer: &mut Answer) {
    let wanted = match call {
        Call::Card(_) | Call::Closest(..) => Polarity::Cube,
        Call::KeepCard(_) => Polarity::Clause,
        _ => return,
    };
    let State { formula, store } = &mut before.state;
    let (_, search) = LearningSearch::run(formula, store, &[], wanted, ceiling, &before.options);
    let held = table::lines_held(formula, answer.table.len(), &before.options);
    let lines = &search.lines.nodes()[..search.lines.count().min(held)];
    table::write(lines, formula.free_count(), &mut answer.table, &before.options);
}

/// The store when the last allowed visit begins.
fn until_last_visit(mut before: Solver, call: &Call, ceiling: u32) -> Store {
    before.call_within(call, ceiling.saturating_sub(1));
    before.state.store
}

//! A list of calls, answered by the library and by the independent implementation.

use crate::library::Native;
use crate::tally::{asks_open, Tally};
use compare::bounded::{Bounded, CeilingSlip};
use compare::slices::Slices;
use compare::solver::settled;
use compare::truth::{self, Verdict};
use compare::{
    table, Answer, Call, Formula, Limits, Options, PlainRun, Said, Slip, Solver, State, Store,
    Subject, HIGHEST_CEILING,
};
use std::fmt;

/// A call and the ceiling on its visits, which only a search has.
#[derive(Clone, Debug, PartialEq, Eq)]
pub struct Asked {
    pub call: Call,
    pub ceiling: u32,
}

impl From<Call> for Asked {
    fn from(call: Call) -> Asked {
        Asked { call, ceiling: HIGHEST_CEILING }
    }
}

/// A state in two slices, its limits in the first two cells, and calls on it.
#[derive(Clone)]
pub struct Case {
    pub slices: Slices,
    pub calls: Vec<Asked>,
    /// A freshly opened formula: the plain run and truth are owed too.
    pub opened: bool,
}

impl Case {
    /// Every call under the highest ceiling.
    pub fn new(slices: Slices, calls: Vec<Call>, opened: bool) -> Case {
        Case { slices, calls: calls.into_iter().map(Asked::from).collect(), opened }
    }

    /// Calls on a freshly opened formula, whose cells outside the counts hold what is given.
    pub fn opened(
        formula: Formula,
        limits: &Limits,
        cell: impl FnMut() -> u16,
        calls: Vec<Call>,
    ) -> Case {
        let state = State { formula, store: Store::default() };
        Case::new(Slices::written(&state, limits, cell), calls, true)
    }
}

/// A slip of the independent implementation: it has to show.
#[derive(Clone, Copy, Debug, Default)]
pub struct Slips {
    pub call: Option<Slip>,
    pub ceiling: Option<CeilingSlip>,
}

impl Slips {
    fn options(&self, limits: Limits) -> Options {
        let judges_state = self.call.is_none_or(Slip::judges_state);
        Options { slip: self.call, judges_state, ..Options::with(limits) }
    }
}

/// The first call on which the two sides do not agree.
pub struct Disagreement {
    pub at: usize,
    pub words: String,
}

/// Up to so many variables truth is evaluated.
const EVALUATED: usize = 9;

/// Makes every call on both sides, and compares the answer, the table and the next state.
pub fn hold(case: &Case, tally: &mut Tally) -> Result<(), Disagreement> {
    hold_with(case, Slips::default(), tally)
}

/// The same with a slip in the independent implementation.
pub fn hold_with(case: &Case, slips: Slips, tally: &mut Tally) -> Result<(), Disagreement> {
    let mut sides = Sides::new(case, slips);
    tally.lists += 1;
    if let Some(Bounded { solver, .. }) = &sides.bounded {
        tally.given(&solver.state.formula, &solver.options.limits);
    }
    for (at, asked) in case.calls.iter().enumerate() {
        sides.call(asked, tally).map_err(|words| Disagreement { at, words })?;
    }
    Ok(())
}

struct Sides {
    native: Native,
    /// None where a slice is too short, or a count, a length or a level's code is out of range.
    bounded: Option<Bounded>,
    plain: Option<PlainRun>,
}

impl Sides {
    fn new(case: &Case, slips: Slips) -> Sides {
        let state = case.slices.read().zip(case.slices.limits());
        let plain = state.as_ref().filter(|_| case.opened);
        Sides {
            native: Native::new(case.slices.clone()),
            plain: plain.map(|(state, limits)| PlainRun::new(state.formula.clone(), *limits)),
            bounded: state.map(|(state, limits)| Bounded {
                solver: Solver::new(state, slips.options(limits)),
                slip: slips.ceiling,
            }),
        }
    }

    fn call(&mut self, asked: &Asked, tally: &mut Tally) -> Result<(), String> {
        let Asked { call, ceiling } = asked;
        let before = self.native.slices.clone();
        let answer = self.native.answer(call, *ceiling)?;
        tally.call(call, &answer);
        let expected = match &mut self.bounded {
            Some(bounded) => {
                let given = bounded.solver.state.store.clone();
                let expected = bounded.call_within(call, *ceiling);
                let State { formula, store } = &bounded.solver.state;
                tally.searched(call, expected.said, formula, &given, store);
                expected
            }
            None => refused_by_state(call),
        };
        if answer != expected {
            let visits = (answer.visits, expected.visits);
            return Err(format!("{answer}; expected {expected}; visits {visits:?}"));
        }
        self.next_state(call, &before, &answer)?;
        if call.searches() && *ceiling < HIGHEST_CEILING {
            self.against_the_full_search(asked, &before, &answer, tally)?;
        }
        self.against_the_plain_run(asked, &answer, tally)
    }

    /// "only a stopped call's answer is not compared with it, its visits still are".
    fn against_the_plain_run(
        &mut self,
        Asked { call, ceiling }: &Asked,
        answer: &Answer,
        tally: &mut Tally,
    ) -> Result<(), String> {
        let Some(plain) = &mut self.plain else { return Ok(()) };
        let plain_answer = plain.call(call);
        tally.plain += 1;
        if answer.visits > plain_answer.visits {
            return Err(format!("visits {}, plain {}", answer.visits, plain_answer.visits));
        }
        if answer.said == Said::Refused(34) {
            let needs_more = plain_answer.visits > u64::from(*ceiling);
            return needs_more.then_some(()).ok_or("stopped, and the plain search fits".into());
        }
        if !answer.same_reply(&plain_answer) {
            return Err(format!("{answer}; plain run: {plain_answer}"));
        }
        if plain.formula.prefix.len() <= EVALUATED {
            let limits = self.native.slices.limits().unwrap_or(Limits::PAPER);
            tally.truths += u64::from(true_answer(&plain.formula, &limits, call, answer)?);
        }
        Ok(())
    }

    /// The library beside itself: a search that the ceiling does not stop is the full one, cell for cell, and one
    /// that it stops needs more visits.
    fn against_the_full_search(
        &self,
        Asked { call, ceiling }: &Asked,
        before: &Slices,
        answer: &Answer,
        tally: &mut Tally,
    ) -> Result<(), String> {
        let mut full = Native::new(before.clone());
        let whole = full.answer(call, HIGHEST_CEILING)?;
        let ceiling = u64::from(*ceiling);
        tally.under_ceiling(ceiling, whole.visits);
        match answer.said {
            Said::Refused(34) if whole.visits > ceiling => Ok(()),
            Said::Refused(34) => Err(format!("stopped, and {} visits are needed", whole.visits)),
            _ if (answer, &self.native.slices) == (&whole, &full.slices) => Ok(()),
            _ => Err(format!("{answer}; under the highest ceiling {whole}, or another state")),
        }
    }

    /// The state cell for cell: after a refusal in no visit the one that was given; else what the other side says, and what
    /// was given in the cells that its counts do not tell, of which no call writes any.
    fn next_state(&self, call: &Call, before: &Slices, answer: &Answer) -> Result<(), String> {
        let kept = matches!(answer.said, Said::Refused(_)) && answer.visits == 0;
        if kept && self.native.slices != *before {
            return Err(format!("{answer}, and the state is not the one that was given"));
        }
        let Some(Bounded { solver, .. }) = &self.bounded else { return Ok(()) };
        // "It neither reads nor adds to the store".
        if asks_open(&solver.state.formula, call) && self.native.slices != *before {
            return Err(format!("{answer}, and a query with an open flag writes to the state"));
        }
        let next = self.native.slices.read();
        if next.as_ref() != Some(&solver.state) {
            return Err(format!("next state {next:?}; expected {:?}", solver.state));
        }
        let mut expected = before.clone();
        expected.write(&solver.state);
        if !kept && self.native.slices != expected {
            return Err(format!("{answer}, and a cell outside the counts is written"));
        }
        Ok(())
    }
}

/// "22 the state is malformed": no lines, no visits, and the table zeroed.
fn refused_by_state(call: &Call) -> Answer {
    Answer { said: Said::Refused(22), table: vec![0; call.table()], visits: 0 }
}

/// The verdict of a card's lines.
fn wanted(call: &Call) -> Verdict {
    if matches!(call, Call::KeepCard(_)) {
        Verdict::No
    } else {
        Verdict::Yes
    }
}

/// Whether there was something to evaluate.
fn true_answer(
    formula: &Formula,
    limits: &Limits,
    call: &Call,
    answer: &Answer,
) -> Result<bool, String> {
    let options = Options::with(*limits);
    match (call, answer.said) {
        (Call::Query(reading), Said::Swap | Said::Keep | Said::Unsettled) => {
            let said = settled(truth::of_reading(formula, reading));
            if said != answer.said {
                return Err(format!("{answer}; by evaluation {said:?}"));
            }
        }
        (Call::Closest(reading, _), Said::Closest(found)) => {
            let values = reading.values(formula).into_iter().map(|value| value == Some(true));
            let nearest = truth::closest(formula, &values.collect::<Vec<_>>());
            let bytes = |values: Vec<bool>| -> Vec<u8> {
                values.iter().map(|on| 1 + u8::from(*on)).collect()
            };
            let nearest = nearest.map(|(reading, differs)| (bytes(reading), differs));
            let told = (found.reading[..formula.free_count()].to_vec(), found.differs);
            if nearest.as_ref() != Some(&told) {
                return Err(format!("{answer}; by evaluation {nearest:?}"));
            }
        }
        (Call::Closest(..), Said::Refused(35)) => {
            if truth::verdict(formula, &[]) != Verdict::No {
                return Err(format!("{answer}, and a reading is true"));
            }
        }
        (Call::Card(length) | Call::KeepCard(length), Said::Lines(count)) => {
            let lines = truth::lines(formula, &mut vec![], wanted(call));
            let mut expected = vec![0; *length];
            table::write(&lines, formula.free_count(), &mut expected, &options);
            if (count, &answer.table) != (lines.len(), &expected) {
                return Err(format!("{answer}; by evaluation {lines:?}"));
            }
        }
        (Call::Card(length) | Call::KeepCard(length), Said::Refused(21)) => {
            let lines = truth::lines(formula, &mut vec![], wanted(call)).len();
            if lines <= table::lines_held(formula, *length, &options) {
                return Err(format!("{answer}; by evaluation {lines} lines"));
            }
        }
        (Call::Write(_), Said::Written(length)) => {
            let opened = compare::text::open(&answer.table[..length], &options);
            if opened.as_ref() != Ok(formula) {
                return Err(format!("{answer}; read back {opened:?}"));
            }
        }
        _ => return Ok(false),
    }
    Ok(true)
}

impl fmt::Display for Case {
    fn fmt(&self, f: &mut fmt::Formatter) -> fmt::Result {
        match self.slices.read().zip(self.slices.limits()) {
            Some((state, limits)) => {
                writeln!(f, "{} numbers, {} rules", limits.numbers, limits.clauses)?;
                writeln!(f, "prefix {:?}", state.formula.prefix)?;
                writeln!(f, "clauses {:?}", state.formula.clauses)?;
                writeln!(f, "store {:?}", state.store)?;
            }
            None => writeln!(f, "state {:?}", self.slices)?,
        }
        let mut calls = self.calls.iter();
        calls.try_for_each(|Asked { call, ceiling }| writeln!(f, "  {call}, ceiling {ceiling}"))
    }
}

//! A case: limits, a state and calls, run with and without a slip.

use crate::answer::{Answer, Call, Said, Subject};
use crate::check;
use crate::formula::Quantifier;
use crate::options::{Limits, Options};
use crate::slip::Slip;
use crate::solver::{Solver, State};

/// What two runs of one case have to differ in.
#[derive(Clone, Copy, Debug, PartialEq, Eq)]
pub enum Difference {
    /// Anything that a call returns, visits included.
    Answer,
    /// More than the visits: refusal, verdict, lines or table bytes.
    Reply,
}

#[derive(Clone, Debug, PartialEq, Eq)]
pub struct Case {
    pub limits: Limits,
    pub state: State,
    pub calls: Vec<Call>,
}

impl Case {
    pub fn answers(&self) -> Vec<Answer> {
        Solver::new(self.state.clone(), Options::with(self.limits)).run(&self.calls)
    }

    pub fn slipped_answers(&self, slip: Slip) -> Vec<Answer> {
        let judges_state = slip.judges_state();
        let options = Options { slip: Some(slip), judges_state, ..Options::with(self.limits) };
        Solver::new(self.state.clone(), options).run(&self.calls)
    }

    pub fn malformed(&self) -> bool {
        check::malformed(&self.state, &Options::with(self.limits))
    }

    pub fn differs(&self, slip: Slip, wanted: Difference) -> bool {
        if self.malformed() != slip.is_of_check() || !self.can_run(slip) {
            return false;
        }
        let (right, slipped) = (self.answers(), self.slipped_answers(slip));
        match wanted {
            Difference::Answer => right != slipped,
            Difference::Reply => right.iter().zip(&slipped).any(|(a, b)| !a.same_reply(b)),
        }
    }

    /// Limits of 0 are no limits of a solver, and a search on a malformed state means nothing.
    fn can_run(&self, slip: Slip) -> bool {
        let Limits { numbers, clauses, literals, entries } = self.limits;
        let searches = |call: &Call| !matches!(call, Call::Forget);
        numbers > 0
            && clauses.min(literals).min(entries) > 0
            && !(matches!(slip, Slip::CheckOmits(_)) && self.calls.iter().any(searches))
    }

    /// Variables, clauses, literals, entries, calls and their arguments together, where a refused
    /// call counts more because it shows less; then what makes a case easier to read.
    pub fn size(&self) -> (usize, [usize; 6]) {
        let State { formula, store } = &self.state;
        let lists = [&formula.clauses, &store.clauses, &store.cubes];
        let literals = || lists.iter().flat_map(|list| list.iter().flatten());
        let whole = formula.prefix.len()
            + lists.iter().map(|list| list.len()).sum::<usize>()
            + literals().count()
            + self.calls.iter().map(|call| 1 + call.numbers().len()).sum::<usize>();
        let negative = literals().filter(|literal| **literal < 0).count();
        let quantified = formula.prefix.iter().filter(|v| v.quantifier != Quantifier::Free).count();
        let readable = [
            self.small_limits(),
            self.calls.len(),
            self.numbers(),
            self.table_bytes(),
            negative,
            quantified,
        ];
        (whole + 3 * self.refused_calls(), readable)
    }

    fn refused_calls(&self) -> usize {
        let refused = |answer: &&Answer| matches!(answer.said, Said::Refused(_));
        self.answers().iter().filter(refused).count()
    }

    fn small_limits(&self) -> usize {
        let (mine, paper) = (self.limits, Limits::PAPER);
        [
            mine.numbers != paper.numbers,
            mine.clauses != paper.clauses,
            mine.literals != paper.literals,
            mine.entries != paper.entries,
        ]
        .iter()
        .filter(|differs| **differs)
        .count()
    }

    /// Small numbers in the order of their places read best.
    fn numbers(&self) -> usize {
        let declared = self.state.formula.prefix.iter().enumerate();
        let declared =
            declared.map(|(i, v)| usize::from(v.number.unsigned_abs().abs_diff(i as u16 + 1)));
        let called = self.calls.iter().flat_map(Call::numbers);
        let called = called.map(|n| 2 * usize::from(n.unsigned_abs()) + usize::from(n < 0));
        let records = &self.state.store.records;
        declared.sum::<usize>() + called.sum::<usize>() + records.iter().sum::<usize>()
    }

    fn table_bytes(&self) -> usize {
        self.calls.iter().map(Call::table).sum()
    }
}

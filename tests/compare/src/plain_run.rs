//! The plain run: the calls' arguments, the declarations and the clauses; no store.

use crate::answer::{Answer, Call, Said, Subject};
use crate::closest;
use crate::formula::{Formula, Literal};
use crate::one;
use crate::open_query;
use crate::options::{Limits, Options};
use crate::plain;
use crate::reading::Reading;
use crate::refusal;
use crate::solver::{settled, start_node, Solver};
use crate::store::Store;
use crate::table;
use crate::truth::Verdict;

#[derive(Clone, Debug)]
pub struct PlainRun {
    pub formula: Formula,
    options: Options,
}

impl Subject for PlainRun {
    /// "the plain run has the same limits and no ceiling".
    fn call_within(&mut self, call: &Call, _: u32) -> Answer {
        match call {
            Call::Rule(literals) => self.rule(literals),
            Call::One(literals) => self.one(literals),
            Call::Query(reading) => self.query(reading),
            Call::Withdraw => self.withdraw(),
            Call::Card(length) => self.card(*length, Verdict::Yes),
            Call::KeepCard(length) => self.card(*length, Verdict::No),
            Call::Closest(reading, length) => self.closest(reading, *length),
            Call::Forget => Answer::new(Said::Forgotten),
            Call::Write(length) => self.write(*length),
        }
    }
}

impl PlainRun {
    pub fn new(formula: Formula, limits: Limits) -> PlainRun {
        PlainRun { formula, options: Options::with(limits) }
    }

    fn rule(&mut self, literals: &[Literal]) -> Answer {
        let wide: Vec<i32> = literals.iter().map(|&literal| i32::from(literal)).collect();
        if let Some(number) = refusal::of_rule(&self.formula, &wide, &self.options) {
            return Answer::new(Said::Refused(number));
        }
        self.formula.add(literals);
        Answer::new(Said::Added)
    }

    fn one(&mut self, literals: &[Literal]) -> Answer {
        let wide: Vec<i32> = literals.iter().map(|&literal| i32::from(literal)).collect();
        if let Some(number) = refusal::of_one(&self.formula, &wide, &self.options) {
            return Answer::new(Said::Refused(number));
        }
        one::rules(literals, &self.options).iter().for_each(|rule| self.formula.add(rule));
        Answer::new(Said::Added)
    }

    /// From the plain walk's card.
    fn closest(&self, reading: &Reading, length: usize) -> Answer {
        if let Some(number) = closest::refusal(&self.formula, reading, &self.options) {
            return Answer { said: Said::Refused(number), table: vec![0; length], visits: 0 };
        }
        let mut answer = self.card(length, Verdict::Yes);
        if let Said::Lines(lines) = answer.said {
            let found = closest::find(&self.formula, reading, lines, &answer.table, &self.options);
            answer.said = found.map_or(Said::Refused(35), Said::Closest);
        }
        answer
    }

    /// "the plain run, too, takes away the last of the rules that it carries, one of the opened book's
    /// included".
    fn withdraw(&mut self) -> Answer {
        match self.formula.clauses.pop() {
            Some(_) => Answer::new(Said::Withdrawn),
            None => Answer::new(Said::Refused(32)),
        }
    }

    /// With an open flag it is the walk of the learning run, "which in demand 3's lists stands for both walks".
    fn query(&self, reading: &Reading) -> Answer {
        let (formula, options) = (&self.formula, &self.options);
        if let Some(number) = refusal::of_query(formula, reading, options) {
            return Answer::new(Said::Refused(number));
        }
        let (verdict, visits) = if reading.is_full(formula) {
            let found = plain::search(formula, &start_node(formula, reading));
            (found.verdict, found.visits)
        } else {
            let found = open_query::walk(formula, reading, u64::MAX, &Store::default(), options);
            (found.verdict.expect("no ceiling stops it"), found.visits)
        };
        Answer { said: settled(verdict), table: vec![], visits }
    }

    /// A book is written from the declarations and the rules alone.
    fn write(&self, length: usize) -> Answer {
        Solver::opened(self.formula.clone(), self.options).call(&Call::Write(length))
    }

    /// "too many lines give 21, 0 lines and a zeroed table".
    fn card(&self, length: usize, wanted: Verdict) -> Answer {
        let found = plain::search(&self.formula, &[]);
        let lines = if wanted == Verdict::Yes { found.lines } else { found.keep_lines };
        let mut table = vec![0; length];
        let said = if lines.len() > table::lines_held(&self.formula, length, &self.options) {
            Said::Refused(21)
        } else {
            table::write(&lines, self.formula.free_count(), &mut table, &self.options);
            Said::Lines(lines.len())
        };
        Answer { said, table, visits: found.visits }
    }
}

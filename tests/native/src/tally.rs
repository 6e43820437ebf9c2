//! What a run has covered.

use crate::rounds;
use compare::{Answer, Call, Formula, Limits, Said, Store};
use std::collections::BTreeMap;
use std::fmt;

#[derive(Clone, Debug, Default)]
pub struct Tally {
    pub lists: u64,
    /// Calls by their kind.
    pub asked: BTreeMap<&'static str, u64>,
    pub rules: u64,
    pub withdrawals: u64,
    pub forgets: u64,
    pub swaps: u64,
    pub keeps: u64,
    pub unsettled: u64,
    /// Queries with an open flag that were settled.
    pub open: u64,
    /// Closest readings, and those that differ.
    pub closest: u64,
    pub differing: u64,
    pub cards: u64,
    pub lines: u64,
    /// Books written back.
    pub written: u64,
    pub visits: u64,
    /// Of one call.
    pub most_visits: u64,
    pub refusals: BTreeMap<u8, u64>,
    /// Calls that were answered by the plain run as well.
    pub plain: u64,
    /// Answers that were held to truth by evaluation.
    pub truths: u64,
    pub tables_of_no_byte: u64,
    /// Cards into a table whose length is no multiple of a line's.
    pub tables_with_a_tail: u64,
    /// Searches under a ceiling of just what they need, and of one visit less.
    pub exact: u64,
    pub one_short: u64,
    /// Calls that learned and left a full store: of clauses, then of cubes.
    pub filled: [u64; 2],
    /// Lists under 40 and 255, and under other limits.
    pub usual_limits: u64,
    pub own_limits: u64,
    pub most_variables: usize,
    pub most_clauses: usize,
    pub longest_clause: usize,
    /// Malformed states by their fault, and how many the fault left well formed.
    pub faults: BTreeMap<String, [u64; 2]>,
}

/// Whether a call is a query with an open flag.
pub fn asks_open(formula: &Formula, call: &Call) -> bool {
    matches!(call, Call::Query(reading) if !reading.is_full(formula))
}

impl Tally {
    pub fn given(&mut self, formula: &Formula, limits: &Limits) {
        let usual = *limits == Limits::PAPER;
        self.usual_limits += u64::from(usual);
        self.own_limits += u64::from(!usual);
        self.most_variables = self.most_variables.max(formula.prefix.len());
        self.formula(formula);
    }

    fn formula(&mut self, formula: &Formula) {
        self.most_clauses = self.most_clauses.max(formula.clauses.len());
        let longest = formula.clauses.iter().map(Vec::len).max().unwrap_or(0);
        self.longest_clause = self.longest_clause.max(longest);
    }

    pub fn call(&mut self, call: &Call, answer: &Answer) {
        *self.asked.entry(rounds::kind(call)).or_default() += 1;
        match answer.said {
            Said::Refused(number) => *self.refusals.entry(number).or_default() += 1,
            Said::Added => self.rules += 1,
            Said::Withdrawn => self.withdrawals += 1,
            Said::Forgotten => self.forgets += 1,
            Said::Swap => self.swaps += 1,
            Said::Keep => self.keeps += 1,
            Said::Unsettled => self.unsettled += 1,
            Said::Lines(count) => {
                self.cards += 1;
                self.lines += count as u64;
            }
            Said::Closest(found) => {
                self.closest += 1;
                self.differing += u64::from(found.differs > 0);
            }
            Said::Written(_) => self.written += 1,
        }
        self.tables_of_no_byte += u64::from(matches!(call, Call::Card(0) | Call::KeepCard(0)));
        self.visits += answer.visits;
        self.most_visits = self.most_visits.max(answer.visits);
    }

    pub fn searched(
        &mut self,
        call: &Call,
        said: Said,
        formula: &Formula,
        before: &Store,
        after: &Store,
    ) {
        let free = formula.free_count().max(1);
        let settled = matches!(said, Said::Swap | Said::Keep);
        self.open += u64::from(settled && asks_open(formula, call));
        let tail =
            matches!(call, Call::Card(length) | Call::KeepCard(length) if length % free != 0);
        self.tables_with_a_tail += u64::from(tail);
        let lists = [(&before.clauses, &after.clauses), (&before.cubes, &after.cubes)];
        for (count, (before, after)) in self.filled.iter_mut().zip(lists) {
            *count += u64::from(after.len() == 64 && before != after);
        }
        self.formula(formula);
    }

    pub fn under_ceiling(&mut self, ceiling: u64, needed: u64) {
        self.exact += u64::from(ceiling == needed && needed > 0);
        self.one_short += u64::from(ceiling + 1 == needed);
    }

    pub fn add(&mut self, other: &Tally) {
        let sums = [
            (&mut self.lists, other.lists),
            (&mut self.rules, other.rules),
            (&mut self.withdrawals, other.withdrawals),
            (&mut self.forgets, other.forgets),
            (&mut self.swaps, other.swaps),
            (&mut self.keeps, other.keeps),
            (&mut self.unsettled, other.unsettled),
            (&mut self.open, other.open),
            (&mut self.closest, other.closest),
            (&mut self.differing, other.differing),
            (&mut self.cards, other.cards),
            (&mut self.lines, other.lines),
            (&mut self.written, other.written),
            (&mut self.visits, other.visits),
            (&mut self.plain, other.plain),
            (&mut self.truths, other.truths),
            (&mut self.tables_of_no_byte, other.tables_of_no_byte),
            (&mut self.tables_with_a_tail, other.tables_with_a_tail),
            (&mut self.exact, other.exact),
            (&mut self.one_short, other.one_short),
            (&mut self.usual_limits, other.usual_limits),
            (&mut self.own_limits, other.own_limits),
        ];
        sums.into_iter().for_each(|(sum, more)| *sum += more);
        for (sum, more) in self.filled.iter_mut().zip(other.filled) {
            *sum += more;
        }
        for (kind, more) in &other.asked {
            *self.asked.entry(kind).or_default() += more;
        }
        for (number, more) in &other.refusals {
            *self.refusals.entry(*number).or_default() += more;
        }
        for (fault, more) in &other.faults {
            let sum = self.faults.entry(fault.clone()).or_default();
            sum.iter_mut().zip(more).for_each(|(sum, more)| *sum += more);
        }
        self.most_visits = self.most_visits.max(other.most_visits);
        self.most_variables = self.most_variables.max(other.most_variables);
        self.most_clauses = self.most_clauses.max(other.most_clauses);
        self.longest_clause = self.longest_clause.max(other.longest_clause);
    }

    pub fn calls(&self) -> u64 {
        let refused: u64 = self.refusals.values().sum();
        let queries = self.swaps + self.keeps + self.unsettled;
        let answered = queries + self.cards + self.closest + self.written;
        self.rules + self.withdrawals + self.forgets + answered + refused
    }
}

impl fmt::Display for Tally {
    fn fmt(&self, f: &mut fmt::Formatter) -> fmt::Result {
        let Tally { lists, rules, forgets, swaps, keeps, cards, lines, written, .. } = self;
        writeln!(f, "{lists} lists, {} calls:", self.calls())?;
        write!(f, "  {rules} rules accepted, {} withdrawn, {forgets} forgets, ", self.withdrawals)?;
        write!(f, "{swaps} swap, {keeps} keep, {} unsettled, ", self.unsettled)?;
        write!(f, "{} settled with open flags, ", self.open)?;
        write!(f, "{} closest readings, {} of them others, ", self.closest, self.differing)?;
        writeln!(f, "{cards} cards of {lines} lines, {written} books written")?;
        writeln!(f, "  refusals by number: {:?}", self.refusals)?;
        let [clauses, cubes] = self.filled;
        writeln!(
            f,
            "  calls that learned and left a full store of clauses {clauses}, of cubes {cubes}"
        )?;
        write!(f, "  card tables of no byte {}, ", self.tables_of_no_byte)?;
        writeln!(f, "of a length that is no multiple {}", self.tables_with_a_tail)?;
        let (exact, short) = (self.exact, self.one_short);
        writeln!(f, "  ceilings of just what a search needs {exact}, of one less {short}")?;
        writeln!(f, "  visits {}, most of one call {}", self.visits, self.most_visits)?;
        writeln!(f, "  also plain {}, also by truth {}", self.plain, self.truths)?;
        let (usual, own) = (self.usual_limits, self.own_limits);
        writeln!(f, "  lists under 40 and 255 {usual}, under other limits {own}")?;
        let most = (self.most_variables, self.most_clauses, self.longest_clause);
        write!(f, "  most variables, clauses, literals of a clause {most:?}")?;
        for (fault, [malformed, well_formed]) in &self.faults {
            write!(f, "\n  {fault}: malformed {malformed}, still well formed {well_formed}")?;
        }
        Ok(())
    }
}

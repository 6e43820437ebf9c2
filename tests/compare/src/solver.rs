//! The calls on a state, answered by the learning search.

use crate::answer::{Answer, Call, Said, Subject, HIGHEST_CEILING, LENT_BYTE};
use crate::check;
use crate::closest;
use crate::constraint::Polarity;
use crate::formula::{Formula, Literal};
use crate::learning::{LearningSearch, Outcome};
use crate::one;
use crate::open_query;
use crate::options::Options;
use crate::reading::Reading;
use crate::refusal;
use crate::slip::Slip;
use crate::store::Store;
use crate::table::{self, Lines};
use crate::truth::Verdict;
use crate::write;

#[derive(Clone, Debug, Default, PartialEq, Eq)]
pub struct State {
    pub formula: Formula,
    pub store: Store,
}

/// A state and what it is run with. "Each call takes the state that the last one returned, also
/// after a refusal."
#[derive(Clone, Debug)]
pub struct Solver {
    pub state: State,
    pub options: Options,
    /// How many rules stood at first. Only a slip reads this.
    opened: usize,
    /// The rules of the exactly-one form accepted last: from the first to behind the last. Only a slip reads this.
    form: (usize, usize),
}

impl Subject for Solver {
    fn call_within(&mut self, call: &Call, ceiling: u32) -> Answer {
        match call {
            Call::Rule(literals) => self.rule(literals),
            Call::One(literals) => self.one(literals),
            Call::Withdraw => self.withdraw(),
            Call::Query(reading) => self.query(reading, ceiling),
            Call::Card(length) => {
                let mut table = vec![LENT_BYTE; *length];
                self.lines(Polarity::Cube, &mut table, ceiling)
            }
            Call::KeepCard(length) => {
                let mut table = vec![LENT_BYTE; *length];
                self.keep_card(&mut table, ceiling)
            }
            Call::Closest(reading, length) => {
                let mut table = vec![LENT_BYTE; *length];
                self.closest(reading, &mut table, ceiling)
            }
            Call::Forget => self.forget(),
            Call::Write(length) => {
                let mut table = vec![LENT_BYTE; *length];
                self.write(&mut table)
            }
        }
    }
}

impl Solver {
    pub fn new(state: State, options: Options) -> Solver {
        let opened = state.formula.clauses.len();
        Solver { state, options, opened, form: (0, 0) }
    }

    /// A freshly opened formula: its store is empty.
    pub fn opened(formula: Formula, options: Options) -> Solver {
        Solver::new(State { formula, store: Store::default() }, options)
    }

    /// "Rule adds a rule; if accepted, all passes go and bars remain."
    pub fn rule(&mut self, literals: &[Literal]) -> Answer {
        let wide: Vec<i32> = literals.iter().map(|&literal| i32::from(literal)).collect();
        let refused = refusal::of_rule(&self.state.formula, &wide, &self.options);
        if let Some(number) = self.first_refusal(refused) {
            if self.options.slips(Slip::RefusedRuleDropsCubes) {
                self.state.store.cubes.clear();
            }
            return Answer::new(Said::Refused(number));
        }
        let clauses = &self.state.formula.clauses;
        let stands = clauses.iter().any(|clause| same_set(clause, literals));
        if self.options.slips(Slip::WrittenOrderKept) {
            self.state.formula.clauses.push(literals.to_vec());
        } else if !(stands && self.options.slips(Slip::EqualClauseNotAdded)) {
            self.state.formula.add(literals);
        }
        self.state.store.rule_added(self.state.formula.clauses.len(), &self.options);
        Answer::new(Said::Added)
    }

    /// "All of its rules are added, or none".
    pub fn one(&mut self, literals: &[Literal]) -> Answer {
        let wide: Vec<i32> = literals.iter().map(|&literal| i32::from(literal)).collect();
        let refused = refusal::of_one(&self.state.formula, &wide, &self.options);
        let refused = self.first_refusal(refused);
        let half = refused == Some(20) && self.options.slips(Slip::OneHalfAdded);
        let of_literals = refusal::of_rule(&self.state.formula, &wide, &self.options);
        if refused.is_none() || half && of_literals.is_none() {
            let first = self.state.formula.clauses.len();
            let room = self.options.clause_limit() - first;
            for rule in one::rules(literals, &self.options).iter().take(room) {
                self.state.formula.add(rule);
            }
            let standing = self.state.formula.clauses.len();
            self.form = (first, standing);
            if !self.options.slips(Slip::OneKeepsCubes) {
                self.state.store.rule_added(standing, &self.options);
            }
        }
        Answer::new(refused.map_or(Said::Added, Said::Refused))
    }

    /// "Add a call that withdraws the rule added last."
    pub fn withdraw(&mut self) -> Answer {
        let spared = if self.options.slips(Slip::OpenedRulesStay) { self.opened } else { 0 };
        let refused = refusal::of_withdrawal(&self.state.formula, spared, &self.options);
        if let Some(number) = self.first_refusal(refused) {
            if number == 32 && self.options.slips(Slip::RefusedWithdrawalEmptiesStore) {
                self.state.store = Store::default();
            }
            return Answer::new(Said::Refused(number));
        }
        let clauses = &mut self.state.formula.clauses;
        if self.options.slips(Slip::OldestRuleWithdrawn) {
            clauses.remove(0);
        } else if self.options.slips(Slip::WithdrawalTakesForm) && clauses.len() == self.form.1 {
            clauses.truncate(self.form.0);
        } else {
            clauses.pop();
        }
        self.state.store.rule_withdrawn(clauses.len(), &self.options);
        Answer::new(Said::Withdrawn)
    }

    fn query(&mut self, reading: &Reading, ceiling: u32) -> Answer {
        let refused = refusal::of_query(&self.state.formula, reading, &self.options);
        if let Some(number) = self.first_refusal(refused) {
            return Answer::new(Said::Refused(number));
        }
        let learns = match self.options.slip {
            Some(Slip::OpenIsOff) => true,
            Some(Slip::FullReadingWalksPlain) => false,
            _ => reading.is_full(&self.state.formula),
        };
        match learns {
            true => self.full_query(reading, ceiling),
            false => self.open_query(reading, ceiling),
        }
    }

    /// "The result is swap if every completion is a swap, keep if none is, otherwise unsettled."
    fn open_query(&mut self, reading: &Reading, ceiling: u32) -> Answer {
        let State { formula, store } = &self.state;
        let found = open_query::walk(formula, reading, ceiling.into(), store, &self.options);
        if self.options.slips(Slip::OpenQueryLearns) {
            let State { formula, store } = &mut self.state;
            let wanted = Polarity::Cube;
            LearningSearch::run(formula, store, &[], wanted, ceiling, &self.options);
        }
        let Some(verdict) = found.verdict else { return stopped(&mut [], found.visits) };
        let said = match (self.options.slip, settled(verdict)) {
            (Some(Slip::UnsettledIsKeep), Said::Unsettled) => Said::Keep,
            (Some(Slip::UnsettledIsSwap), Said::Unsettled) => Said::Swap,
            (_, said) => said,
        };
        Answer { said, table: vec![], visits: found.visits }
    }

    /// "A query starts at the node of all its flags".
    fn full_query(&mut self, reading: &Reading, ceiling: u32) -> Answer {
        let start = start_node(&self.state.formula, reading);
        let State { formula, store } = &mut self.state;
        let wanted = Polarity::Cube;
        let (outcome, search) =
            LearningSearch::run(formula, store, &start, wanted, ceiling, &self.options);
        let visits = search.visits;
        store.search_ended(formula.clauses.len(), &self.options);
        let Some(outcome) = outcome else { return stopped(&mut [], visits) };
        let yes = matches!(outcome, Outcome::Decided(c) if c.polarity == Polarity::Cube);
        let said = if yes { Said::Swap } else { Said::Keep };
        Answer { said, table: vec![], visits }
    }

    /// "Card writes to a lent byte table and returns lines and visits." The answer carries the
    /// table's bytes as well.
    pub fn card(&mut self, table: &mut [u8]) -> Answer {
        self.lines(Polarity::Cube, table, HIGHEST_CEILING)
    }

    /// "It works from a card made under a ceiling, whose count and visits it also returns and whose lines the table
    /// then holds." Refusals 22, 8, "then come 34 and 21 from the card, and a card with no line gives 35, which
    /// leaves what 21 leaves".
    fn closest(&mut self, reading: &Reading, table: &mut [u8], ceiling: u32) -> Answer {
        let refused = closest::refusal(&self.state.formula, reading, &self.options);
        if let Some(number) = self.first_refusal(refused) {
            table.fill(0);
            return Answer { said: Said::Refused(number), table: table.to_vec(), visits: 0 };
        }
        let before = self.state.store.clone();
        let mut answer = self.lines(Polarity::Cube, table, ceiling);
        let (formula, options) = (&self.state.formula, &self.options);
        answer.said = match answer.said {
            Said::Lines(lines) => closest::find(formula, reading, lines, &answer.table, options)
                .map_or(Said::Refused(35), Said::Closest),
            Said::Refused(21) if self.options.slips(Slip::NoLineBefore21) => {
                let none = table::lines_held(formula, table.len(), options) == 0;
                Said::Refused(if none { 35 } else { 21 })
            }
            said => said,
        };
        if answer.said == Said::Refused(35) {
            if self.options.slips(Slip::StoreLostAfter35) {
                self.state.store = before;
            }
            answer.visits *= u64::from(!self.options.slips(Slip::NoVisitsAt35));
        }
        answer
    }

    /// "Make the keep card in the same way, with topmost No nodes."
    fn keep_card(&mut self, table: &mut [u8], ceiling: u32) -> Answer {
        let store = self.state.store.clone();
        if self.options.slips(Slip::KeepCardStartsEmpty) {
            self.state.store = Store::default();
        }
        let yes = self.options.slips(Slip::KeepCardOfYes);
        let wanted = if yes { Polarity::Cube } else { Polarity::Clause };
        let answer = self.lines(wanted, table, ceiling);
        let lost = [Slip::KeepCardStartsEmpty, Slip::KeepCardLearnsNothing];
        if self.options.slip.is_some_and(|slip| lost.contains(&slip)) {
            self.state.store = store;
        }
        answer
    }

    /// The lines of a verdict, which a constraint's polarity stands for.
    fn lines(&mut self, wanted: Polarity, table: &mut [u8], ceiling: u32) -> Answer {
        if let Some(number) = self.first_refusal(None) {
            table.fill(0);
            return Answer { said: Said::Refused(number), table: table.to_vec(), visits: 0 };
        }
        let State { formula, store } = &mut self.state;
        let (outcome, search) =
            LearningSearch::run(formula, store, &[], wanted, ceiling, &self.options);
        let (mut lines, visits) = (search.lines, search.visits);
        store.search_ended(formula.clauses.len(), &self.options);
        if outcome.is_none() {
            return stopped(table, visits);
        }
        let flagless = formula.free_count() == 0 && wanted == Polarity::Clause;
        if flagless && self.options.slips(Slip::FlaglessKeepCardHasNoLine) {
            lines = Lines::default();
        }
        let held = table::lines_held(formula, table.len(), &self.options);
        if lines.too_many(held, &self.options) {
            return self.too_many_lines(table, visits);
        }
        table::write(lines.nodes(), formula.free_count(), table, &self.options);
        let taken_back = match wanted {
            Polarity::Cube => Slip::YesLineBytesLeft,
            Polarity::Clause => Slip::NoLineBytesLeft,
        };
        if self.options.slips(taken_back) {
            lines.leave_taken_back(formula.free_count(), table);
        }
        Answer { said: Said::Lines(lines.count()), table: table.to_vec(), visits }
    }

    /// "Only 21 differs: the walk runs to its end first, its visits are returned and its store
    /// is kept."
    fn too_many_lines(&mut self, table: &mut [u8], visits: u64) -> Answer {
        if self.options.slips(Slip::StoreLostAfter21) {
            self.state.store = Store::default();
        }
        if !self.options.slips(Slip::TableKeptAfter21) {
            table.fill(0);
        }
        let visits = if self.options.slips(Slip::NoVisitsAt21) { 0 } else { visits };
        Answer { said: Said::Refused(21), table: table.to_vec(), visits }
    }

    pub fn forget(&mut self) -> Answer {
        if let Some(number) = self.first_refusal(None) {
            return Answer::new(Said::Refused(number));
        }
        self.state.store.forget(&self.options);
        Answer::new(Said::Forgotten)
    }

    /// "It returns the length and zeroes the bytes after the text. A table too short is 31, after
    /// 22, and zeroed." The state stays as it is.
    pub fn write(&self, table: &mut [u8]) -> Answer {
        let text = write::text(&self.state.formula, &self.options);
        let said = match self.first_refusal(write::refusal(&text, table.len(), &self.options)) {
            Some(number) => {
                write::refuse(number, table, &self.options);
                Said::Refused(number)
            }
            None => Said::Written(write::fill(&text, table, &self.options)),
        };
        Answer { said, table: table.to_vec(), visits: 0 }
    }

    /// 22 comes first at every call.
    fn first_refusal(&self, of_input: Option<u8>) -> Option<u8> {
        let of_state = (self.options.judges_state && check::malformed(&self.state, &self.options))
            .then_some(22);
        if self.options.slips(Slip::StateJudgedLast) {
            return of_input.or(of_state);
        }
        of_state.or(of_input)
    }
}

/// "a stopped walk returns 34, never 21, with visits equal to the ceiling and a zeroed card".
fn stopped(table: &mut [u8], visits: u64) -> Answer {
    table.fill(0);
    Answer { said: Said::Refused(34), table: table.to_vec(), visits }
}

/// The node that gives every free variable its value. (One that a full reading cannot have left open is off.)
pub fn start_node(formula: &Formula, reading: &Reading) -> Vec<bool> {
    reading.values(formula).into_iter().map(|value| value == Some(true)).collect()
}

/// What a query says to a verdict.
pub fn settled(verdict: Verdict) -> Said {
    match verdict {
        Verdict::Yes => Said::Swap,
        Verdict::No => Said::Keep,
        Verdict::Mixed => Said::Unsettled,
    }
}

fn same_set(clause: &[Literal], literals: &[Literal]) -> bool {
    clause.len() == literals.len() && clause.iter().all(|literal| literals.contains(literal))
}

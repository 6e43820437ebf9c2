//! How many nodes a search can visit, counted up to a limit: inputs are kept affordable by it.

use compare::solver::start_node;
use compare::{refusal, Call, Formula, Limits, Options, Quantifier, Reading};

/// Numbers of variables, of which a formula has up to 63.
const HIGHEST_NUMBER: usize = Limits::HIGHEST.numbers as usize;

/// Which nodes are counted.
#[derive(Clone, Copy, Debug, PartialEq, Eq)]
pub enum Walk {
    /// Those that the plain search visits: no fewer than the learning search on a reached state.
    Plain,
    /// Both sides of every node that neither a dead clause nor the satisfied clauses decide: no
    /// fewer than the learning search visits on any state.
    Whole,
}

/// Whether a call's search visits at most `limit` nodes.
pub fn affords(formula: &Formula, call: &Call, walk: Walk, limit: u64) -> bool {
    match call {
        Call::Rule(_) | Call::One(_) | Call::Withdraw | Call::Forget | Call::Write(_) => true,
        Call::Card(_) | Call::KeepCard(_) | Call::Closest(..) => within(formula, &[], walk, limit),
        Call::Query(reading) => {
            refusal::of_query(formula, reading, &Options::paper()).is_some()
                || match reading.is_full(formula) {
                    true => within(formula, &start_node(formula, reading), walk, limit),
                    false => open_within(formula, reading, limit),
                }
        }
    }
}

/// Whether the search from a start node visits at most `limit` nodes.
pub fn within(formula: &Formula, start: &[bool], walk: Walk, limit: u64) -> bool {
    visits(formula, start, walk, limit).is_some()
}

/// How many nodes the search from a start node visits. None: more than `limit`.
pub fn visits(formula: &Formula, start: &[bool], walk: Walk, limit: u64) -> Option<u64> {
    let mut count = Count::new(formula, walk, limit);
    let on = start.iter().enumerate().map(|(index, &on)| u64::from(on) << index).sum();
    count.visit(start.len(), on);
    (count.visits <= limit).then_some(count.visits)
}

/// Whether a query with an open flag visits at most `limit` nodes: on any state those of the plain search from the
/// empty node, one side only at a recorded flag.
fn open_within(formula: &Formula, reading: &Reading, limit: u64) -> bool {
    let mut count = Count::new(formula, Walk::Plain, limit);
    count.recorded = reading.values(formula);
    count.visit(0, 0);
    count.visits <= limit
}

/// Clauses as sets of places, a bit for each.
struct Count<'a> {
    formula: &'a Formula,
    walk: Walk,
    clauses: Vec<(u64, u64)>,
    hope: u64,
    /// By place: the flags of which one side only is entered.
    recorded: Vec<Option<bool>>,
    limit: u64,
    visits: u64,
}

#[derive(Clone, Copy, PartialEq, Eq)]
enum Found {
    Yes,
    No,
    Mixed,
}

impl<'a> Count<'a> {
    fn new(formula: &'a Formula, walk: Walk, limit: u64) -> Count<'a> {
        let mut bit = [0u64; 1 + HIGHEST_NUMBER];
        let mut hope = 0;
        for (index, variable) in formula.prefix.iter().enumerate() {
            bit[usize::from(variable.number.unsigned_abs())] = 1 << index;
            hope |= u64::from(variable.quantifier != Quantifier::Forall) << index;
        }
        let set = |clause: &[i16], positive: bool| {
            let some = clause.iter().filter(|literal| (**literal > 0) == positive);
            some.map(|literal| bit[usize::from(literal.unsigned_abs())]).sum()
        };
        let clauses = formula.clauses.iter().map(|c| (set(c, true), set(c, false))).collect();
        Count { formula, walk, clauses, hope, recorded: vec![], limit, visits: 0 }
    }

    fn visit(&mut self, length: usize, on: u64) -> Found {
        self.visits += 1;
        if self.visits > self.limit {
            return Found::Mixed;
        }
        let set = (1u64 << length) - 1;
        let off = set & !on;
        let mut all = true;
        for (positive, negative) in &self.clauses {
            if positive & on != 0 || negative & off != 0 {
                continue;
            }
            all = false;
            if (positive | negative) & !set & self.hope == 0 {
                return Found::No;
            }
        }
        if all {
            return Found::Yes;
        }
        if let Some(Some(value)) = self.recorded.get(length) {
            return self.visit(length + 1, on | u64::from(*value) << length);
        }
        let quantifier = self.formula.prefix[length].quantifier;
        let first = self.visit(length + 1, on);
        let stops = match quantifier {
            Quantifier::Exists => first == Found::Yes,
            Quantifier::Forall => first == Found::No,
            Quantifier::Free => false,
        };
        if stops && self.walk == Walk::Plain {
            return first;
        }
        let second = self.visit(length + 1, on | 1 << length);
        match quantifier {
            _ if stops => first,
            Quantifier::Free if first != second => Found::Mixed,
            _ => second,
        }
    }
}

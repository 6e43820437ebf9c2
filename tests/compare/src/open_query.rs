//! Paper 02, wish 5: "A query with an open flag goes as the plain walk from the empty node, entering one side
//! only at a recorded flag. It neither reads nor adds to the store, and its visits equal that walk's".

use crate::formula::{Formula, Quantifier};
use crate::options::Options;
use crate::reading::Reading;
use crate::slip::Slip;
use crate::store::Store;
use crate::truth::Verdict;

/// What such a walk found under its ceiling: no verdict where it was stopped.
pub struct Found {
    pub verdict: Option<Verdict>,
    pub visits: u64,
}

/// Walks under a ceiling on visits. The store is there for a slip alone.
pub fn walk(
    formula: &Formula,
    reading: &Reading,
    ceiling: u64,
    store: &Store,
    options: &Options,
) -> Found {
    let recorded = reading.values(formula);
    let mut node = vec![];
    if options.slips(Slip::OpenQueryStartsBelow) {
        node = recorded.iter().copied().map_while(|value| value).collect();
    }
    let mut walk = Walk { formula, recorded, store, options, ceiling, node, visits: 0 };
    let verdict = walk.visit();
    Found { verdict, visits: walk.visits }
}

struct Walk<'a> {
    formula: &'a Formula,
    /// By place; none for an open flag.
    recorded: Vec<Option<bool>>,
    store: &'a Store,
    options: &'a Options,
    ceiling: u64,
    node: Vec<bool>,
    visits: u64,
}

impl Walk<'_> {
    fn visit(&mut self) -> Option<Verdict> {
        let recorded = self.recorded.get(self.node.len()).copied().flatten();
        let passed = recorded.is_some() && self.options.slips(Slip::RecordedNodeNotVisited);
        if !passed {
            if self.visits >= self.ceiling {
                return None;
            }
            self.visits += 1;
            if let Some(verdict) = self.decide() {
                return Some(verdict);
            }
        }
        match recorded {
            Some(value) => self.recorded_side(value),
            None => self.branch(),
        }
    }

    /// One side only, and its verdict is the node's.
    fn recorded_side(&mut self, value: bool) -> Option<Verdict> {
        if self.options.slips(Slip::RecordedSidesBoth) {
            self.side(!value)?;
        }
        self.side(value)
    }

    fn branch(&mut self) -> Option<Verdict> {
        let quantifier = self.formula.prefix[self.node.len()].quantifier;
        let off = self.side(false)?;
        match (quantifier, off) {
            (Quantifier::Exists, Verdict::Yes) | (Quantifier::Forall, Verdict::No) => {
                return Some(off)
            }
            _ => {}
        }
        let on = self.side(true)?;
        let mixed = quantifier == Quantifier::Free && off != on;
        Some(if mixed { Verdict::Mixed } else { on })
    }

    fn side(&mut self, value: bool) -> Option<Verdict> {
        self.node.push(value);
        let verdict = self.visit();
        self.node.pop();
        verdict
    }

    /// "If a rule is dead: No. Else if every rule is satisfied: Yes."
    fn decide(&self) -> Option<Verdict> {
        let (formula, node) = (self.formula, &self.node);
        let hope = |quantifier| quantifier != Quantifier::Forall;
        if formula.clauses.iter().any(|clause| formula.dead(node, clause, hope)) {
            return Some(Verdict::No);
        }
        if formula.clauses.iter().all(|clause| formula.satisfied(node, clause)) {
            return Some(Verdict::Yes);
        }
        self.options.slips(Slip::OpenQueryReadsStore).then(|| self.stored())?
    }

    /// What a stored entry would decide: only a slip asks.
    fn stored(&self) -> Option<Verdict> {
        let all = |entry: &Vec<i16>, value: bool| {
            entry.iter().all(|&literal| self.formula.value(&self.node, literal) == Some(value))
        };
        let no = self.store.clauses.iter().any(|clause| all(clause, false));
        let yes = || self.store.cubes.iter().any(|cube| all(cube, true));
        no.then_some(Verdict::No).or_else(|| yes().then_some(Verdict::Yes))
    }
}

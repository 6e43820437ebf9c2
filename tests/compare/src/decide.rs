//! What decides a node without branching: steps 1 to 4 of the learning search.

use crate::constraint::{last_place, Constraint, Polarity};
use crate::dead::dead_clause;
use crate::formula::Literal;
use crate::learning::LearningSearch;
use crate::slip::Slip;

impl LearningSearch<'_> {
    /// Steps 1 to 4 in the paper's order.
    pub(crate) fn decide(&self) -> Option<Constraint> {
        if self.options.slips(Slip::SatisfiedBeforeStoredClause) {
            return self
                .dead_clause()
                .or_else(|| self.satisfied())
                .or_else(|| self.eligible_match(Polarity::Clause))
                .or_else(|| self.eligible_match(Polarity::Cube));
        }
        self.dead_clause()
            .or_else(|| self.eligible_match(Polarity::Clause))
            .or_else(|| self.satisfied())
            .or_else(|| self.eligible_match(Polarity::Cube))
    }

    /// Step 1, as paper 02 amends it: No, with the rule that the finder returns "reduced as the bar".
    fn dead_clause(&self) -> Option<Constraint> {
        let index = dead_clause(self.formula, &self.node, self.options)?;
        let mut clause = Constraint::new(Polarity::Clause, self.formula.clauses[index].clone());
        clause.reduce(self.formula, self.options);
        clause.youngest = index + 1;
        Some(clause)
    }

    /// "The oldest eligible bar with all literals false"; "the oldest eligible pass with all
    /// literals true".
    fn eligible_match(&self, polarity: Polarity) -> Option<Constraint> {
        let entries = self.store.of(polarity);
        let matches = |entry: &Vec<Literal>| self.eligible(entry) && self.all(entry, polarity);
        let newest_first = match polarity {
            Polarity::Clause => self.options.slips(Slip::NewestClauseFirst),
            Polarity::Cube => self.options.slips(Slip::NewestCubeFirst),
        };
        let index = if newest_first {
            entries.iter().rposition(matches)?
        } else {
            entries.iter().position(matches)?
        };
        let mut found = Constraint::new(polarity, entries[index].clone());
        found.stored_at = Some(index);
        if polarity == Polarity::Clause {
            found.youngest = self.store.records[index];
        }
        Some(found)
    }

    /// "eligible at a node of length k if its last place is k; at the start node, if it is at
    /// most k".
    fn eligible(&self, entry: &[Literal]) -> bool {
        let length = self.node.len();
        let last = last_place(self.formula, entry).0;
        let at_start = length == self.start_length;
        let at_most = if at_start {
            !self.options.slips(Slip::StartTestsExactOnly)
        } else {
            self.options.slips(Slip::InnerTestsAtMost)
        };
        last == length || at_most && last <= length
    }

    fn all(&self, entry: &[Literal], polarity: Polarity) -> bool {
        let wanted = Some(polarity.literal_value());
        entry.iter().all(|&literal| self.formula.value(&self.node, literal) == wanted)
    }

    /// "Every rule satisfied: Yes. The pass has from each rule its true literal of smallest
    /// place, reduced."
    fn satisfied(&self) -> Option<Constraint> {
        let is_true = |literal: &&Literal| self.formula.value(&self.node, **literal) == Some(true);
        let mut cube = Constraint::new(Polarity::Cube, vec![]);
        for clause in &self.formula.clauses {
            let literal = if self.options.slips(Slip::CubeTakesLargestPlace) {
                clause.iter().rfind(is_true)?
            } else {
                clause.iter().find(is_true)?
            };
            cube.literals.push(*literal);
        }
        cube.order(self.formula, self.options);
        cube.reduce(self.formula, self.options);
        Some(cube)
    }
}

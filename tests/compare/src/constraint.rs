//! Constraints: conflict clauses and their dual, cubes; reduction and union.

use crate::formula::{Formula, Literal, Place, Quantifier};
use crate::options::Options;
use crate::slip::Slip;

/// A clause is used where all its literals are false and means No; a cube where all are true
/// and means Yes.
#[derive(Clone, Copy, Debug, PartialEq, Eq)]
pub enum Polarity {
    Clause,
    Cube,
}

impl Polarity {
    pub fn literal_value(self) -> bool {
        self == Polarity::Cube
    }

    /// "Reducing a bar drops literals from the end, by place, while they are forall; reducing a
    /// pass, while they are exists."
    pub fn drops(self) -> Quantifier {
        match self {
            Polarity::Clause => Quantifier::Forall,
            Polarity::Cube => Quantifier::Exists,
        }
    }
}

/// A constraint that a visit returns.
#[derive(Clone, Debug, PartialEq, Eq)]
pub struct Constraint {
    pub polarity: Polarity,
    /// In place order, no variable twice.
    pub literals: Vec<Literal>,
    /// Where it stood in the store when it was found or stored. Only a slip reads this: a
    /// constraint on its way up is a value, not a place in the store.
    pub stored_at: Option<usize>,
    /// The youngest rule that it rests on, counted from 1. Only a slip reads this: the record of a
    /// learned clause is the count of the rules that stand when it is stored.
    pub youngest: usize,
}

impl Constraint {
    pub fn new(polarity: Polarity, literals: Vec<Literal>) -> Constraint {
        Constraint { polarity, literals, stored_at: None, youngest: 0 }
    }

    pub fn names(&self, number: i16) -> bool {
        self.literals.iter().any(|literal| literal.unsigned_abs() == number.unsigned_abs())
    }

    /// Universal reduction of a clause, existential reduction of a cube. "A flag is never
    /// dropped."
    pub fn reduce(&mut self, formula: &Formula, options: &Options) {
        while let Some(&last) = self.literals.last() {
            let quantifier = formula.quantifier_of(last);
            let slipped =
                quantifier == Quantifier::Free && options.slips(Slip::FreeDroppedInReducing);
            if quantifier != self.polarity.drops() && !slipped {
                break;
            }
            self.literals.pop();
        }
    }

    /// "Joining unites the two without v, reduces".
    pub fn join(
        &self,
        other: &Constraint,
        v: i16,
        formula: &Formula,
        options: &Options,
    ) -> Constraint {
        let both = self.literals.iter().chain(&other.literals).copied();
        let literals = both.filter(|l| l.unsigned_abs() != v.unsigned_abs()).collect();
        let mut joined = Constraint::new(self.polarity, literals);
        joined.youngest = self.youngest.max(other.youngest);
        joined.order(formula, options);
        if !options.slips(Slip::JoinNotReduced) {
            joined.reduce(formula, options);
        }
        joined
    }

    /// A set of literals in place order, none twice.
    pub fn order(&mut self, formula: &Formula, options: &Options) {
        if options.slips(Slip::OrderedByNumber) {
            self.literals.sort_by_key(|literal| literal.unsigned_abs());
        } else {
            self.literals.sort_by_key(|&literal| formula.declared_place(literal));
        }
        self.literals.dedup();
    }
}

/// "Its last place is then that of its last literal, 0 if empty."
pub fn last_place(formula: &Formula, literals: &[Literal]) -> Place {
    literals.last().map_or(Place(0), |&literal| formula.declared_place(literal))
}

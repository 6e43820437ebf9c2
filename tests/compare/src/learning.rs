//! The learning search: visits, branching (step 5) and lines. Steps 1 to 4 are in `decide`.

use crate::answer::HIGHEST_CEILING;
use crate::constraint::{Constraint, Polarity};
use crate::formula::{Formula, Quantifier};
use crate::options::Options;
use crate::slip::Slip;
use crate::store::Store;
use crate::table::Lines;

/// What a visit returns: a constraint, whose polarity is the verdict, or Mixed.
#[derive(Clone, Debug, PartialEq, Eq)]
pub enum Outcome {
    Decided(Constraint),
    Mixed,
}

pub struct LearningSearch<'a> {
    pub(crate) formula: &'a Formula,
    pub(crate) options: &'a Options,
    pub(crate) store: &'a mut Store,
    pub(crate) node: Vec<bool>,
    pub(crate) start_length: usize,
    /// The verdict of the lines: Yes for a card, No for a keep card.
    pub(crate) wanted: Polarity,
    pub lines: Lines,
    pub visits: u64,
    /// No visit is made that exceeds it.
    ceiling: u32,
    /// Under a ceiling: what was joined, each with the visits made until then.
    pub learned: Vec<(u64, Constraint)>,
}

impl<'a> LearningSearch<'a> {
    /// Searches from a start node under a ceiling on visits; the store is changed on the way. No outcome
    /// where it stopped: "The walk stops before the visit that would exceed it, keeping what it stored
    /// until then."
    pub fn run(
        formula: &'a Formula,
        store: &'a mut Store,
        start: &[bool],
        wanted: Polarity,
        ceiling: u32,
        options: &'a Options,
    ) -> (Option<Outcome>, LearningSearch<'a>) {
        let mut search = LearningSearch {
            formula,
            options,
            store,
            node: start.to_vec(),
            start_length: start.len(),
            wanted,
            lines: Lines::default(),
            visits: 0,
            ceiling,
            learned: vec![],
        };
        let outcome = search.visit();
        (outcome, search)
    }

    /// None: the ceiling stopped the search.
    fn visit(&mut self) -> Option<Outcome> {
        if self.visits >= u64::from(self.ceiling) {
            return None;
        }
        self.visits += 1;
        let lines_above = self.lines.count();
        let outcome = match self.decide() {
            Some(constraint) => {
                self.visits -= u64::from(self.options.slips(Slip::LeafNotCounted));
                Outcome::Decided(constraint)
            }
            None => self.branch()?,
        };
        self.settle_lines(lines_above, &outcome);
        Some(outcome)
    }

    /// "Branch on the next variable v, off first."
    fn branch(&mut self) -> Option<Outcome> {
        let v = self.formula.prefix[self.node.len()];
        match v.quantifier {
            Quantifier::Exists => self.quantified(v.number, Polarity::Cube),
            Quantifier::Forall => self.quantified(v.number, Polarity::Clause),
            Quantifier::Free => self.free(v.number),
        }
    }

    /// "Exists: a Yes goes up. A No whose bar lacks v goes up without a further visit. Two bars
    /// that name v are joined. Forall: the same with Yes and No, bar and pass exchanged."
    /// `decides` is the polarity of which one side is enough.
    fn quantified(&mut self, v: i16, decides: Polarity) -> Option<Outcome> {
        let [first, second] = self.sides();
        let mut off = self.decided_side(first)?;
        if off.polarity == decides || self.goes_up_alone(&off, v) {
            return Some(self.up(off));
        }
        let on = self.decided_side(second)?;
        let sent_up = !on.names(v) && !self.options.slips(Slip::QuantifiedOnSideJoined);
        if on.polarity == decides || sent_up {
            return Some(self.up(on));
        }
        self.reread(&mut off);
        Some(self.join(&off, &on, v))
    }

    /// "Flag: an off side of No or Yes whose bar or pass lacks v goes up. Else visit on. If both
    /// sides are of one kind and not Mixed, the on side's entry goes up if it lacks v, else the
    /// two are joined. Otherwise Mixed."
    fn free(&mut self, v: i16) -> Option<Outcome> {
        let [first, second] = self.sides();
        let off = self.side(first)?;
        if let Outcome::Decided(constraint) = &off {
            if !constraint.names(v) && !self.options.slips(Slip::FreeVisitsBoth) {
                return Some(self.up(constraint.clone()));
            }
        }
        let on = self.side(second)?;
        Some(match (off, on) {
            (Outcome::Decided(mut off), Outcome::Decided(on)) if off.polarity == on.polarity => {
                if !on.names(v) && !self.options.slips(Slip::FreeOnSideJoined) {
                    return Some(self.up(on));
                }
                self.reread(&mut off);
                self.join(&off, &on, v)
            }
            _ => Outcome::Mixed,
        })
    }

    fn goes_up_alone(&self, off: &Constraint, v: i16) -> bool {
        !off.names(v) && !self.options.slips(Slip::QuantifiedVisitsBoth)
    }

    fn sides(&self) -> [bool; 2] {
        if self.options.slips(Slip::OnBeforeOff) {
            [true, false]
        } else {
            [false, true]
        }
    }

    fn side(&mut self, value: bool) -> Option<Outcome> {
        self.node.push(value);
        let outcome = self.visit();
        self.node.pop();
        outcome
    }

    fn decided_side(&mut self, value: bool) -> Option<Constraint> {
        match self.side(value)? {
            Outcome::Decided(constraint) => Some(constraint),
            Outcome::Mixed => unreachable!("Mixed occurs at free variables only"),
        }
    }

    /// "A side's bar or pass goes up reduced."
    fn up(&self, mut constraint: Constraint) -> Outcome {
        constraint.reduce(self.formula, self.options);
        Outcome::Decided(constraint)
    }

    /// "Joining unites the two without v, reduces, stores the result and sends it up."
    fn join(&mut self, off: &Constraint, on: &Constraint, v: i16) -> Outcome {
        let mut joined = off.join(on, v, self.formula, self.options);
        joined.stored_at = match self.options.slips(Slip::LearnsNothing) {
            true => None,
            false => {
                let record = self.record(&joined);
                self.store.learn(joined.polarity, &joined.literals, record, self.options)
            }
        };
        if self.ceiling < HIGHEST_CEILING {
            self.learned.push((self.visits, joined.clone()));
        }
        Outcome::Decided(joined)
    }

    /// "how many rules stood when it was stored".
    fn record(&self, joined: &Constraint) -> usize {
        let standing = self.formula.clauses.len();
        match self.options.slip {
            Some(Slip::RecordOfYoungestRule) => joined.youngest,
            Some(Slip::RecordOneLess) => standing.saturating_sub(1),
            _ => standing,
        }
    }

    /// Nothing, unless slipped: displacement happens "without changing an entry already on its
    /// way up".
    fn reread(&self, off: &mut Constraint) {
        if !self.options.slips(Slip::DisplacementChangesEntryGoingUp) {
            return;
        }
        let entries = self.store.of(off.polarity);
        if let Some(entry) = off.stored_at.and_then(|index| entries.get(index)) {
            off.literals = entry.clone();
        }
    }

    /// A node of the wanted verdict within the free variables takes the place of the lines below it.
    fn settle_lines(&mut self, lines_above: usize, outcome: &Outcome) {
        let keep = self.wanted == Polarity::Clause;
        let is_line = match outcome {
            Outcome::Decided(constraint) => constraint.polarity == self.wanted,
            Outcome::Mixed => keep && self.options.slips(Slip::MixedIsNo),
        };
        let below = keep && self.options.slips(Slip::NoLinesBelowFlags);
        let two_lines = match self.wanted {
            Polarity::Cube => self.options.slips(Slip::YesHalvesTwoLines),
            Polarity::Clause => self.options.slips(Slip::NoHalvesTwoLines),
        };
        let halves = self.lines.count() - lines_above >= 2;
        let within = self.node.len() <= self.formula.free_count() || below;
        if is_line && within && !(halves && two_lines) {
            self.lines.replace_after(lines_above, &self.node);
        }
    }
}

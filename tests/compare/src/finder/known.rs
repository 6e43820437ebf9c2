//! Cases built by hand, for slips that random cases hardly ever show.

use super::case::Case;
use super::generate::Source;
use crate::answer::Call;
use crate::formula::{Formula, Quantifier, Variable};
use crate::options::Limits;
use crate::reading::Reading;
use crate::slip::Slip;
use crate::solver::State;
use crate::store::Store;

use Quantifier::{Exists, Forall, Free};

pub fn cases(slip: Slip, source: Source) -> Vec<Case> {
    match (slip, source) {
        (Slip::NewestClauseFirst, Source::Opened) => vec![two_clauses_at_one_node()],
        (Slip::NewestCubeFirst, Source::Opened) => vec![two_cubes_at_one_node()],
        (Slip::EqualNotStoredAgain, Source::GivenStore) => vec![equal_clauses_learned()],
        (Slip::NewestFillsGap, Source::GivenStore) => vec![gap_before_two_clauses()],
        (Slip::WrittenOrderKept, Source::Opened) => vec![universal_written_last()],
        (Slip::OnePairsBySecond, Source::Opened) => vec![pairs_of_four_withdrawn()],
        _ => vec![],
    }
}

/// Variables numbered by their places.
fn opened(quantifiers: &[Quantifier], clauses: &[&[i16]], calls: Vec<Call>) -> Case {
    let variable = |(index, &quantifier)| Variable { number: index as i16 + 1, quantifier };
    let prefix = quantifiers.iter().enumerate().map(variable).collect();
    let clauses = clauses.iter().map(|clause| clause.to_vec()).collect();
    let state = State { formula: Formula { prefix, clauses }, store: Store::default() };
    Case { limits: Limits::PAPER, state, calls }
}

/// The clauses 1 3 and 2 3 are learned in this order. Once the rule -3 is added, their join with
/// it at 1 off, 2 off is either 1 or 2.
fn two_clauses_at_one_node() -> Case {
    let clauses: &[&[i16]] = &[&[1, 3, 4], &[1, 3, -4], &[2, 3, 4], &[2, 3, -4]];
    let queries = [Reading::new(&[], &[1, 2]), Reading::new(&[1], &[2])].map(Call::Query);
    let calls = queries.into_iter().chain([Call::Rule(vec![-3]), Call::Card(8)]).collect();
    opened(&[Free, Free, Exists, Exists], clauses, calls)
}

/// The cubes -2 -3 and -3 are learned in this order where 1 is off. Where 1 is on both are true
/// at 2 off, 3 off, and the join with the on side's cube 1 3 is either 1 -2 or 1.
fn two_cubes_at_one_node() -> Case {
    let clauses: &[&[i16]] = &[&[1, -2, 5], &[1, -3], &[4, 5], &[-4, 5], &[3, 5]];
    opened(&[Free, Free, Free, Forall, Exists], clauses, vec![Call::Card(24)])
}

/// With sound entries a constraint is never learned while it is stored. The cube -3 is not sound
/// here: it keeps the node of 1 off Mixed, and below it the clause 1 is learned twice. The second
/// time displaces the clause -1.
fn equal_clauses_learned() -> Case {
    let clauses: &[&[i16]] = &[&[1, 4], &[1, -4]];
    let mut case = opened(&[Free, Free, Free, Exists], clauses, vec![Call::Card(24)]);
    case.state.store = Store { clauses: vec![vec![-1]], records: vec![0], cubes: vec![vec![-3]] };
    case.limits.entries = 2;
    case
}

/// The same two learned clauses stand behind one that goes with the last rule: their order stays.
fn gap_before_two_clauses() -> Case {
    let clauses: &[&[i16]] = &[&[1, 3, 4], &[1, 3, -4], &[2, 3, 4], &[2, 3, -4], &[-3], &[-3]];
    let calls = vec![Call::Withdraw, Call::Card(8)];
    let mut case = opened(&[Free, Free, Exists, Exists], clauses, calls);
    let learned = vec![vec![1, 2, 3], vec![1, 3], vec![2, 3]];
    case.state.store = Store { clauses: learned, records: vec![6, 0, 0], cubes: vec![] };
    case
}

/// Written last, the universal 1 is dropped though the existential 2 stands behind it: the clause
/// 2, learned where 1 is off, then decides where 1 is on.
fn universal_written_last() -> Case {
    let rules = [vec![3, 2, 1], vec![-3, 2, 1]].map(Call::Rule);
    let calls = rules.into_iter().chain([Call::Card(0)]).collect();
    opened(&[Forall, Exists, Exists], &[&[-1, -2]], calls)
}

/// Of the six pairs of four literals the last three go: those of 1 with the others stay, and not those among 1, 2
/// and 3.
fn pairs_of_four_withdrawn() -> Case {
    let mut calls = vec![Call::One(vec![1, 2, 3, 4])];
    calls.extend(vec![Call::Withdraw; 3]);
    calls.push(Call::Card(64));
    opened(&[Free, Free, Free, Free], &[], calls)
}

#[cfg(test)]
mod tests {
    use super::*;
    use crate::finder::Difference;
    use crate::slip::ALL;

    #[test]
    fn each_shows_its_slip() {
        let mut count = 0;
        for (slip, words) in ALL {
            for source in [Source::Opened, Source::GivenStore] {
                for case in cases(*slip, source) {
                    assert!(case.differs(*slip, Difference::Answer), "{slip:?}: {words}");
                    count += 1;
                }
            }
        }
        assert_eq!(count, 6);
    }
}

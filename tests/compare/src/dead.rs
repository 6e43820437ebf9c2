//! The finder of step 1: the dead clause that it takes, at any node.

use crate::constraint::{last_place, Constraint, Polarity};
use crate::formula::{Formula, Literal, Node, Place, Quantifier};
use crate::options::Options;
use crate::slip::Slip;

/// "The finder now returns the dead rule whose reduced form has the lowest last place, the earliest
/// added among equals": its index.
pub fn dead_clause(formula: &Formula, node: &Node, options: &Options) -> Option<usize> {
    let hope = |quantifier| match quantifier {
        Quantifier::Exists => true,
        Quantifier::Forall => options.slips(Slip::OpenForallIsHope),
        Quantifier::Free => !options.slips(Slip::OpenFreeIsNoHope),
    };
    let mut found: Option<(usize, Place)> = None;
    for (index, clause) in formula.clauses.iter().enumerate() {
        if !formula.dead(node, clause, hope) {
            continue;
        }
        let last = compared_place(formula, clause, options);
        if found.is_none_or(|(_, lowest)| goes_before(last, lowest, options)) {
            found = Some((index, last));
        }
    }
    found.map(|(index, _)| index)
}

/// The last place of a dead clause's reduced form.
fn compared_place(formula: &Formula, clause: &[Literal], options: &Options) -> Place {
    let mut reduced = Constraint::new(Polarity::Clause, clause.to_vec());
    if !options.slips(Slip::UnreducedPlacesCompared) {
        reduced.reduce(formula, options);
    }
    last_place(formula, &reduced.literals)
}

/// Whether a later dead clause takes the place of the one found before it.
fn goes_before(last: Place, lowest: Place, options: &Options) -> bool {
    match options.slip {
        Some(Slip::LaterOfEqualDead) => last <= lowest,
        Some(Slip::FirstDeadClause) => false,
        _ => last < lowest,
    }
}

//! The plain search: it learns nothing.

use crate::formula::{Formula, Quantifier};
use crate::truth::Verdict;

/// What the plain search found from its start node on.
pub struct PlainOutcome {
    pub verdict: Verdict,
    /// The topmost Yes nodes within the free variables, in order.
    pub lines: Vec<Vec<bool>>,
    /// The topmost No nodes.
    pub keep_lines: Vec<Vec<bool>>,
    pub visits: u64,
}

/// Searches from a start node: the empty one, or that of all free variables.
pub fn search(formula: &Formula, start: &[bool]) -> PlainOutcome {
    let mut found =
        PlainOutcome { verdict: Verdict::Mixed, lines: vec![], keep_lines: vec![], visits: 0 };
    let mut node = start.to_vec();
    found.verdict = visit(formula, &mut node, &mut found);
    found
}

fn visit(formula: &Formula, node: &mut Vec<bool>, found: &mut PlainOutcome) -> Verdict {
    found.visits += 1;
    let (lines_above, keep_above) = (found.lines.len(), found.keep_lines.len());
    let verdict = decide(formula, node).unwrap_or_else(|| branch(formula, node, found));
    let (lines, above) = match verdict {
        Verdict::Yes => (&mut found.lines, lines_above),
        Verdict::No => (&mut found.keep_lines, keep_above),
        Verdict::Mixed => return verdict,
    };
    if node.len() <= formula.free_count() {
        lines.truncate(above);
        lines.push(node.clone());
    }
    verdict
}

/// "If a rule is dead: No. Else if every rule is satisfied: Yes."
fn decide(formula: &Formula, node: &[bool]) -> Option<Verdict> {
    let hope = |quantifier| quantifier != Quantifier::Forall;
    if formula.clauses.iter().any(|clause| formula.dead(node, clause, hope)) {
        Some(Verdict::No)
    } else if formula.clauses.iter().all(|clause| formula.satisfied(node, clause)) {
        Some(Verdict::Yes)
    } else {
        None
    }
}

fn branch(formula: &Formula, node: &mut Vec<bool>, found: &mut PlainOutcome) -> Verdict {
    let quantifier = formula.prefix[node.len()].quantifier;
    let off = side(formula, node, found, false);
    match (quantifier, off) {
        (Quantifier::Exists, Verdict::Yes) | (Quantifier::Forall, Verdict::No) => return off,
        _ => {}
    }
    let on = side(formula, node, found, true);
    if quantifier != Quantifier::Free || off == on {
        on
    } else {
        Verdict::Mixed
    }
}

fn side(formula: &Formula, node: &mut Vec<bool>, found: &mut PlainOutcome, on: bool) -> Verdict {
    node.push(on);
    let verdict = visit(formula, node, found);
    node.pop();
    verdict
}

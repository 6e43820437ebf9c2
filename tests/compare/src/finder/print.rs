//! A case and its answers in readable form.

use super::case::Case;
use crate::answer::{Answer, Subject};
use crate::formula::{Quantifier, Variable};
use crate::options::Limits;
use crate::plain_run::PlainRun;
use crate::slip::Slip;
use crate::store::Store;
use std::fmt::Write;

/// One block: what is given, then a line for each call. The plain run has no store: its visits
/// stand beside the learning ones, and it is left out for a malformed state.
pub fn print(case: &Case, slip: Slip) -> String {
    let mut text = given(case);
    let plain = (!case.malformed())
        .then(|| PlainRun::new(case.state.formula.clone(), case.limits).run(&case.calls));
    let (right, slipped) = (case.answers(), case.slipped_answers(slip));
    for (index, call) in case.calls.iter().enumerate() {
        let plain = plain.as_ref().map_or("-".into(), |answers| answers[index].visits.to_string());
        let (right, slipped) = (&right[index], &slipped[index]);
        let _ = write!(text, "  {call}: {right}, visits {}/{plain}", right.visits);
        text.push_str(&wrong(right, slipped));
        text.push('\n');
    }
    text
}

fn wrong(right: &Answer, slipped: &Answer) -> String {
    if right == slipped {
        String::new()
    } else if right.same_reply(slipped) {
        format!("   [slip: visits {}]", slipped.visits)
    } else {
        format!("   [slip: {slipped}, visits {}]", slipped.visits)
    }
}

fn given(case: &Case) -> String {
    let mut text = limits(&case.limits);
    let formula = &case.state.formula;
    let _ = writeln!(text, "  prefix: {}", prefix(&formula.prefix));
    let _ = writeln!(text, "  rules: {:?}", formula.clauses);
    let store = &case.state.store;
    if !store.clauses.is_empty() || !store.cubes.is_empty() {
        let Store { clauses, records, cubes } = store;
        let _ = writeln!(text, "  given store: bars {clauses:?} of {records:?}, passes {cubes:?}");
    }
    text
}

fn limits(limits: &Limits) -> String {
    if *limits == Limits::PAPER {
        return String::new();
    }
    let Limits { numbers, clauses, literals, entries } = limits;
    format!(
        "  limits: numbers {numbers}, rules {clauses}, literals {literals}, entries {entries}\n"
    )
}

/// The groups in declared order.
fn prefix(variables: &[Variable]) -> String {
    let mut text = String::from("flags");
    let mut last = Quantifier::Free;
    for variable in variables {
        if variable.quantifier != last {
            last = variable.quantifier;
            text.push_str(match last {
                Quantifier::Free => ", flags",
                Quantifier::Exists => ", exists",
                Quantifier::Forall => ", forall",
            });
        }
        let _ = write!(text, " {}", variable.number);
    }
    text
}

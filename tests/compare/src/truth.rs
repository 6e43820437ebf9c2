//! Truth by evaluation alone: every value is given before a clause is looked at. It shares
//! nothing with the two searches but the prefix and the clauses.

use crate::formula::{Formula, Quantifier};
use crate::reading::Reading;

#[derive(Clone, Copy, Debug, PartialEq, Eq)]
pub enum Verdict {
    Yes,
    No,
    Mixed,
}

/// "Truth, for a full reading: with all values given, every rule has a true literal; exists
/// means off or on does, forall means both do."
pub fn holds(formula: &Formula, values: &mut Vec<bool>) -> bool {
    if values.len() == formula.prefix.len() {
        return formula.clauses.iter().all(|clause| has_true_literal(formula, values, clause));
    }
    let quantifier = formula.prefix[values.len()].quantifier;
    let mut sides = [false; 2];
    for (side, value) in sides.iter_mut().zip([false, true]) {
        values.push(value);
        *side = holds(formula, values);
        values.pop();
    }
    if quantifier == Quantifier::Exists {
        sides[0] || sides[1]
    } else {
        sides[0] && sides[1]
    }
}

fn has_true_literal(formula: &Formula, values: &[bool], clause: &[i16]) -> bool {
    formula.prefix.iter().zip(values).any(|(variable, &value)| {
        clause.contains(&if value { variable.number } else { -variable.number })
    })
}

/// "A node among the flags is Yes if all completions of its flags are true, No if none is,
/// otherwise Mixed."
pub fn verdict(formula: &Formula, node: &[bool]) -> Verdict {
    let open = formula.free_count() - node.len();
    let mut true_ones = 0;
    for completion in 0..1usize << open {
        let mut values = node.to_vec();
        values.extend((0..open).map(|bit| completion >> bit & 1 == 1));
        true_ones += usize::from(holds(formula, &mut values));
    }
    match true_ones {
        0 => Verdict::No,
        all if all == 1 << open => Verdict::Yes,
        _ => Verdict::Mixed,
    }
}

/// "swap if every completion is a swap, keep if none is, otherwise unsettled": the verdict of all readings that
/// agree with one that may leave flags open.
pub fn of_reading(formula: &Formula, reading: &Reading) -> Verdict {
    let given = reading.values(formula);
    let mut truths = (0..1usize << given.len()).filter_map(|bits| {
        let mut values: Vec<bool> = (0..given.len()).map(|flag| bits >> flag & 1 == 1).collect();
        let agrees =
            given.iter().zip(&values).all(|(given, value)| given.is_none_or(|g| g == *value));
        agrees.then(|| holds(formula, &mut values))
    });
    let first = truths.next().expect("a reading has a completion");
    match (truths.all(|truth| truth == first), first) {
        (false, _) => Verdict::Mixed,
        (_, true) => Verdict::Yes,
        (_, false) => Verdict::No,
    }
}

/// The first reading, off before on in place order, of those for which the rules are true that differs from a given
/// one in the fewest flags, and that number; by evaluation of all readings. None: they are true for none.
pub fn closest(formula: &Formula, given: &[bool]) -> Option<(Vec<bool>, usize)> {
    let flags = given.len();
    // The first flag is the highest bit, so that readings come in order.
    let reading = |bits: usize| -> Vec<bool> {
        (0..flags).map(|place| bits >> (flags - 1 - place) & 1 == 1).collect()
    };
    let differs = |reading: &[bool]| reading.iter().zip(given).filter(|(a, b)| a != b).count();
    let all = (0..1usize << flags).map(reading);
    let on_card = all.filter(|reading| holds(formula, &mut reading.clone()));
    on_card.map(|reading| (differs(&reading), reading)).min_by_key(|(n, _)| *n).map(|(n, r)| (r, n))
}

/// The lines below a node: "a Yes node within the flags with no shorter Yes node above it", off
/// before on; for the keep card "with topmost No nodes".
pub fn lines(formula: &Formula, node: &mut Vec<bool>, wanted: Verdict) -> Vec<Vec<bool>> {
    match verdict(formula, node) {
        Verdict::Mixed => {
            let mut found = vec![];
            for value in [false, true] {
                node.push(value);
                found.extend(lines(formula, node, wanted));
                node.pop();
            }
            found
        }
        verdict if verdict == wanted => vec![node.clone()],
        _ => vec![],
    }
}

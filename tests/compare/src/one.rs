//! Paper 02, wish 10: "It stands for the rule of all its literals, then one rule for each pair as given, first with
//! second, first with third and so on, with both negated."

use crate::formula::Literal;
use crate::options::Options;
use crate::slip::Slip;

/// How many rules a form of so many literals stands for.
pub fn count(literals: usize) -> usize {
    1 + literals * literals.saturating_sub(1) / 2
}

/// The rules, each in the order in which its literals are given.
pub fn rules(literals: &[Literal], options: &Options) -> Vec<Vec<Literal>> {
    let mut pairs: Vec<(usize, usize)> = (0..literals.len())
        .flat_map(|first| (first + 1..literals.len()).map(move |second| (first, second)))
        .collect();
    if options.slips(Slip::OnePairsBySecond) {
        pairs.sort_by_key(|&(first, second)| (second, first));
    }
    let sign = if options.slips(Slip::OneSideNegated) { 1 } else { -1 };
    let pair = |(first, second): (usize, usize)| vec![-literals[first], sign * literals[second]];
    let all = (!options.slips(Slip::OneWithoutWhole)).then(|| literals.to_vec());
    all.into_iter().chain(pairs.into_iter().map(pair)).collect()
}

//! Refusals of rules, declarations and queries, in the paper's order.

use crate::formula::{Formula, Quantifier};
use crate::limits::LimitSlip;
use crate::one;
use crate::options::{Options, MOST_FLAGS};
use crate::reading::Reading;
use crate::slip::Slip;

/// "20, 7, then each number from the left 3, 5, 6". Literals come wider than 16 bits, so that a
/// number of a text is judged before it is narrowed.
pub fn of_rule(formula: &Formula, literals: &[i32], options: &Options) -> Option<u8> {
    let full = (formula.clauses.len() >= options.clause_limit()).then_some(20);
    let length = (literals.is_empty() || literals.len() > options.literal_limit()).then_some(7);
    if options.slips(Slip::LengthBeforeFull) {
        return length.or(full).or_else(|| of_literals(formula, literals, options));
    }
    if options.slips(Slip::RangeBeforeLength) {
        let range = literals.iter().any(|&l| out_of_range(l, options)).then_some(3);
        let exchanged = length.and(range).or(length);
        return full.or(exchanged).or_else(|| of_literals(formula, literals, options));
    }
    full.or(length).or_else(|| of_literals(formula, literals, options))
}

/// "Fewer than two literals or more than 16 is 7, in this form before 20", and "20 counts them together"; then as
/// a rule's numbers.
pub fn of_one(formula: &Formula, literals: &[i32], options: &Options) -> Option<u8> {
    let least = if options.slips(Slip::OneAlone) { 1 } else { 2 };
    let length = !(least..=options.literal_limit()).contains(&literals.len());
    let rules = match options.slips(Slip::OneCountsOne) {
        true => 1,
        false => one::count(literals.len()),
    };
    let full = formula.clauses.len() + rules > options.clause_limit();
    let (length, full) = (length.then_some(7), full.then_some(20));
    let first = match options.slips(Slip::OneFullBeforeLength) {
        true => full.or(length),
        false => length.or(full),
    };
    first.or_else(|| of_literals(formula, literals, options))
}

fn of_literals(formula: &Formula, literals: &[i32], options: &Options) -> Option<u8> {
    if options.slips(Slip::RepeatBeforeUndeclared) {
        let repeated = (0..literals.len()).any(|index| repeats(literals, index));
        if repeated && !literals.iter().any(|&l| out_of_range(l, options)) {
            return Some(6);
        }
    }
    if options.slips(Slip::FaultByFault) {
        let indices = || 0..literals.len();
        return (indices().any(|i| out_of_range(literals[i], options)).then_some(3))
            .or_else(|| indices().any(|i| undeclared(formula, literals[i])).then_some(5))
            .or_else(|| indices().any(|i| repeats(literals, i)).then_some(6));
    }
    (0..literals.len()).find_map(|index| of_literal(formula, literals, index, options))
}

fn of_literal(formula: &Formula, literals: &[i32], index: usize, options: &Options) -> Option<u8> {
    let literal = literals[index];
    let range = out_of_range(literal, options).then_some(3);
    let declared = undeclared(formula, literal).then_some(5);
    let first = if options.slips(Slip::UndeclaredBeforeRange) {
        declared.or(range)
    } else {
        range.or(declared)
    };
    first.or_else(|| repeats(literals, index).then_some(6))
}

/// "3 number not 1 to 40 (0 and -32768 too)".
fn out_of_range(literal: i32, options: &Options) -> bool {
    !(1..=options.largest_number()).contains(&literal.abs())
}

fn undeclared(formula: &Formula, literal: i32) -> bool {
    !formula.prefix.iter().any(|variable| i32::from(variable.number) == literal.abs())
}

fn repeats(literals: &[i32], index: usize) -> bool {
    literals[..index].iter().any(|earlier| earlier.abs() == literals[index].abs())
}

/// A declaration: 3, then 4; "Declaring a 41st flag is 33, checked after 4".
pub fn of_declaration(
    formula: &Formula,
    number: i32,
    quantifier: Quantifier,
    options: &Options,
) -> Option<u8> {
    let range = out_of_range(number, options).then_some(3);
    let twice = (!undeclared(formula, number)).then_some(4);
    let flag = quantifier == Quantifier::Free;
    let full = (flag && formula.free_count() >= most_flags(options)).then_some(33);
    match options.of_limits {
        Some(LimitSlip::FlagsBeforeRange) => full.or(range).or(twice),
        Some(LimitSlip::FlagsBeforeTwice) => range.or(full).or(twice),
        _ => range.or(twice).or(full),
    }
}

/// "flags stay at most 40".
pub fn most_flags(options: &Options) -> usize {
    match options.of_limits {
        Some(LimitSlip::FlagsNotCounted) => usize::MAX,
        Some(LimitSlip::FlagsOneLess) => MOST_FLAGS - 1,
        _ => MOST_FLAGS,
    }
}

/// "8 a query names a non-flag, or a flag twice": every bad number is an 8. "A number given both as on and as
/// off is 8."
pub fn of_query(formula: &Formula, reading: &Reading, options: &Options) -> Option<u8> {
    if options.slips(Slip::BothListsTaken) {
        let of = |numbers: &[i16]| of_numbers(formula, numbers, options);
        return of(&reading.on).or(of(&reading.off));
    }
    of_numbers(formula, &reading.numbers(), options)
}

fn of_numbers(formula: &Formula, numbers: &[i16], options: &Options) -> Option<u8> {
    let is_free = |number: i16| {
        let mut free = formula.prefix.iter().filter(|v| v.quantifier == Quantifier::Free);
        free.any(|v| v.number == number)
    };
    let non_free = !numbers.iter().all(|&number| is_free(number));
    let twice = (0..numbers.len()).any(|index| numbers[..index].contains(&numbers[index]));
    let refused = non_free && !options.slips(Slip::QueryTakesNonFree)
        || twice && !options.slips(Slip::QueryTakesRepeat);
    refused.then_some(8)
}

/// "Withdrawing from a book without rules is 32". `spared` is 0: an opened book's rules can be
/// withdrawn like any other.
pub fn of_withdrawal(formula: &Formula, spared: usize, options: &Options) -> Option<u8> {
    let none = formula.clauses.len() <= spared;
    (none && !options.slips(Slip::NothingWithdrawn)).then_some(32)
}

//! A book written back as text: paper 02, wish 2.

use crate::formula::{Formula, Literal, Quantifier};
use crate::options::Options;
use crate::slip::Slip;

/// A table that holds every text: even with the numbers and rules of wish 8, which are 1,000 and
/// 4,000, a text has fewer than 700,000 bytes.
pub const WHOLE: usize = 1 << 20;

/// "Write a book as text. Literals stand in place order, rules in the order of adding, and
/// neighbouring groups of one kind become one line."
pub fn text(formula: &Formula, options: &Options) -> String {
    let mut lines = vec![String::from("(book 1)")];
    lines.extend(declarations(formula, options));
    let rules = formula.clauses.iter().map(|clause| rule(formula, clause, options));
    if options.slips(Slip::RulesNewestFirst) {
        lines.extend(rules.rev());
    } else {
        lines.extend(rules);
    }
    lines.push(String::from("(end)"));
    lines.iter().map(|line| format!("{line}\n")).collect()
}

/// "`(flags ..)` (may be empty, as `(flags)`)", then the groups.
fn declarations(formula: &Formula, options: &Options) -> Vec<String> {
    let mut groups: Vec<(Quantifier, Vec<i16>)> = vec![(Quantifier::Free, vec![])];
    for variable in &formula.prefix {
        let (kind, numbers) = groups.last_mut().expect("the flags come first");
        let apart = options.slips(Slip::GroupsNotMerged) && *kind != Quantifier::Free;
        if *kind == variable.quantifier && !apart {
            numbers.push(variable.number);
        } else {
            groups.push((variable.quantifier, vec![variable.number]));
        }
    }
    if options.slips(Slip::EmptyFlagsLeftOut) {
        groups.retain(|(_, numbers)| !numbers.is_empty());
    }
    groups.iter().map(|(kind, numbers)| group(*kind, numbers)).collect()
}

fn group(kind: Quantifier, numbers: &[i16]) -> String {
    let word = match kind {
        Quantifier::Free => "flags",
        Quantifier::Exists => "exists",
        Quantifier::Forall => "forall",
    };
    let items: String = numbers.iter().map(|number| format!(" {number}")).collect();
    format!("({word}{items})")
}

fn rule(formula: &Formula, clause: &[Literal], options: &Options) -> String {
    let mut literals = clause.to_vec();
    if options.slips(Slip::WrittenByNumber) {
        literals.sort_by_key(|literal| literal.unsigned_abs());
    } else {
        literals.sort_by_key(|&literal| formula.place(literal));
    }
    let item = |&literal: &Literal| {
        let number = literal.unsigned_abs();
        if literal < 0 && !options.slips(Slip::SignLost) {
            format!(" (no {number})")
        } else {
            format!(" {number}")
        }
    };
    let items: String = literals.iter().map(item).collect();
    format!("(rule{items})")
}

/// "A table too short is 31".
pub fn refusal(text: &str, length: usize, options: &Options) -> Option<u8> {
    let more = usize::from(options.slips(Slip::ExactTableRefused));
    let less = usize::from(options.slips(Slip::TableOneByteShort));
    (text.len() + more > length + less).then_some(31)
}

/// ".. and zeroed".
pub fn refuse(number: u8, table: &mut [u8], options: &Options) {
    if number != 31 || !options.slips(Slip::TableKeptAfter31) {
        table.fill(0);
    }
}

/// "It returns the length and zeroes the bytes after the text." Never writes outside the lent
/// table.
pub fn fill(text: &str, table: &mut [u8], options: &Options) -> usize {
    let length = text.len().min(table.len());
    let (start, rest) = table.split_at_mut(length);
    start.copy_from_slice(&text.as_bytes()[..length]);
    if !options.slips(Slip::TextTailKept) {
        rest.fill(0);
    }
    length
}

//! Books as QDIMACS, to be read again or given to another solver.

use crate::formula::{Formula, Quantifier};

/// The same book with each variable named by its place, so that its flags are in rising number.
pub fn by_place(formula: &Formula) -> Formula {
    let mut named = formula.clone();
    for (index, variable) in named.prefix.iter_mut().enumerate() {
        variable.number = index as i16 + 1;
    }
    let place = |&literal: &i16| formula.declared_place(literal).0 as i16 * literal.signum();
    named.clauses =
        formula.clauses.iter().map(|clause| clause.iter().map(place).collect()).collect();
    named
}

/// The lines of a book that is named by place. A group goes on in a line of its own where `splits`
/// says so.
pub fn lines(formula: &Formula, mut splits: impl FnMut() -> bool) -> Vec<String> {
    let mut lines = vec![format!("p cnf {} {}", formula.prefix.len(), formula.clauses.len())];
    let mut open = Quantifier::Free;
    for variable in formula.prefix.iter().filter(|v| v.quantifier != Quantifier::Free) {
        if variable.quantifier != open || splits() {
            open = variable.quantifier;
            lines.push(if open == Quantifier::Exists { "e 0" } else { "a 0" }.into());
        }
        let line = lines.last_mut().expect("the group's line");
        line.truncate(line.len() - 1);
        *line += &format!("{} 0", variable.number);
    }
    let clause = |literals: &Vec<i16>| {
        let items: String = literals.iter().map(|literal| format!("{literal} ")).collect();
        items + "0"
    };
    lines.extend(formula.clauses.iter().map(clause));
    lines
}

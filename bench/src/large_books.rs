//! Books of 100, 300 and 1,000 variables, with up to 4,000 rules: the same book everywhere.

use crate::books::{self, Book, Order, Plan};
use compare::{Formula, Limits, Quantifier, Variable};

/// The largest books have so many rules.
const RULES: usize = Limits::HIGHEST.clauses;

pub fn all() -> Vec<Book> {
    let sizes = [100, 300, 1_000];
    let chains = sizes.map(|count| book(format!("chain of {count}"), chain(count)));
    let adders = sizes.map(|count| book(format!("adder of {count}"), adder(count)));
    let boards = sizes.map(|count| book(format!("boards of {count}"), boards(count)));
    chains.into_iter().chain(adders).chain(boards).collect()
}

fn book(name: String, formula: Formula) -> Book {
    assert!(formula.clauses.len() <= RULES, "{name}: {} rules", formula.clauses.len());
    let name = format!("{name} variables");
    Book { name, formula }
}

fn declare(formula: &mut Formula, quantifier: Quantifier, count: usize) -> Vec<i16> {
    let first = formula.prefix.len() as i16 + 1;
    let numbers: Vec<i16> = (first..first + count as i16).collect();
    formula.prefix.extend(numbers.iter().map(|&number| Variable { number, quantifier }));
    numbers
}

/// "Flag 1, exists 2..n, each equal to the one before, rule n".
pub fn chain(count: usize) -> Formula {
    let mut formula = Formula::default();
    declare(&mut formula, Quantifier::Free, 1);
    declare(&mut formula, Quantifier::Exists, count - 1);
    for number in 2..=count as i16 {
        formula.add(&[1 - number, number]);
        formula.add(&[number - 1, -number]);
    }
    formula.add(&[count as i16]);
    formula
}

/// Flags and loads are added, one by one and again, to a number of ten bits by half adders, as far as variables and
/// rules go; its lowest bits have to be off.
pub fn adder(count: usize) -> Formula {
    const BITS: usize = 10;
    let mut formula = Formula::default();
    let flags = declare(&mut formula, Quantifier::Free, 8);
    let loads = declare(&mut formula, Quantifier::Forall, 3);
    let mut sum: Vec<i16> = vec![];
    let inputs = flags.iter().chain(&loads).cycle();
    for &input in inputs {
        let (bits, needed) = (sum.len(), 2 * sum.len() + 1);
        if formula.prefix.len() + needed > count || formula.clauses.len() + 7 * bits + 8 > RULES {
            break;
        }
        let mut carry = input;
        for bit in &mut sum {
            let half = declare(&mut formula, Quantifier::Exists, 2);
            half_adder(&mut formula, *bit, carry, half[0], half[1]);
            (*bit, carry) = (half[0], half[1]);
        }
        if bits < BITS {
            // A bit more takes the carry.
            let bit = declare(&mut formula, Quantifier::Exists, 1)[0];
            formula.add(&[-carry, bit]);
            formula.add(&[carry, -bit]);
            sum.push(bit);
        }
    }
    let rest = count - formula.prefix.len();
    declare(&mut formula, Quantifier::Exists, rest);
    let low = &sum[..sum.len().min(2)];
    formula.add(&low.iter().map(|bit| -bit).collect::<Vec<_>>());
    formula
}

/// `sum` is exactly one of both, `carry` both.
fn half_adder(formula: &mut Formula, a: i16, b: i16, sum: i16, carry: i16) {
    for clause in [[a, b, -sum], [-a, -b, -sum], [a, -b, sum], [-a, b, sum], [-a, -b, carry]] {
        formula.add(&clause);
    }
    formula.add(&[a, -carry]);
    formula.add(&[b, -carry]);
}

/// Boards of a workshop with the same flags, each with loads and faults of its own and five rules for each fault.
pub fn boards(count: usize) -> Formula {
    const FLAGS: usize = 10;
    let plan = |index: usize, faults: usize| Plan {
        flags: FLAGS,
        loads: 2,
        faults,
        rules: 5 * faults,
        order: if index % 2 == 0 { Order::LoadsFirst } else { Order::FaultsFirst },
        literals: (4, 7),
    };
    let mut formula = Formula::default();
    declare(&mut formula, Quantifier::Free, FLAGS);
    for index in 0.. {
        let room = count - formula.prefix.len();
        let faults = (18 + index % 5).min(room.saturating_sub(2));
        if faults < 3 {
            declare(&mut formula, Quantifier::Exists, room);
            return formula;
        }
        let board = books::formula(plan(index, faults));
        let first = formula.prefix.len() as i16 - FLAGS as i16;
        let own = |literal: i16| match literal.unsigned_abs() as usize <= FLAGS {
            true => literal,
            false => literal + first * literal.signum(),
        };
        let declared = board.prefix[FLAGS..].iter();
        formula.prefix.extend(declared.map(|v| Variable { number: own(v.number), ..*v }));
        // The faults-first order has its numbers in another order than its places.
        let clauses = board.clauses.iter().map(|clause| clause.iter().copied().map(own).collect());
        let clauses: Vec<Vec<i16>> = clauses.collect();
        let room = RULES - formula.clauses.len();
        clauses.iter().take(room).for_each(|clause| formula.add(clause));
    }
    formula
}

//! Books of a workshop, drawn from a seed: the same book everywhere.

use compare::random::Random;
use compare::{text, Formula, Options, Quantifier, Variable};
use std::path::Path;
use std::{fs, io};

pub struct Book {
    pub name: String,
    pub formula: Formula,
}

#[derive(Clone, Copy, Debug, PartialEq, Eq)]
pub enum Order {
    LoadsFirst,
    FaultsFirst,
}

#[derive(Clone, Copy, Debug)]
pub struct Plan {
    pub flags: usize,
    pub loads: usize,
    pub faults: usize,
    pub rules: usize,
    pub order: Order,
    /// Literals of the rules that are drawn freely.
    pub literals: (usize, usize),
}

pub fn formula(plan: Plan) -> Formula {
    let Plan { flags, loads, faults, rules, .. } = plan;
    let seed = (flags * 41 + loads) * 41 + faults;
    let mut random = Random::new((seed * 256 + plan.literals.1 * 7 + plan.literals.0) as u64);
    let random = &mut random;
    let flag = |index: usize| index as i16 + 1;
    let load = |index: usize| flag(flags + index);
    let fault = |index: usize| flag(flags + loads + index);
    let mut formula = Formula { prefix: prefix(plan), clauses: vec![] };
    // A flag that is on has a cause, and a fault shows, at once or while a load runs or rests.
    for index in 0..flags {
        let causes = some(faults, 2 + random.below(2), random);
        let mut rule = vec![-flag(index)];
        rule.extend(causes.into_iter().map(fault));
        formula.add(&rule);
    }
    for index in 0..faults {
        let mut rule = vec![-fault(index), flag(random.below(flags))];
        if random.one_in(2) {
            rule.push(load(random.below(loads)) * random.pick(&[1, -1]));
        }
        formula.add(&rule);
    }
    formula.add(&(0..faults.min(16)).map(fault).collect::<Vec<_>>());
    // Whatever else the workshop has seen: a log, loads, and faults that fit or do not.
    while formula.clauses.len() < rules {
        let length = random.between(plan.literals.0, plan.literals.1);
        let of_faults = (1 + random.below(length.div_ceil(2))).min(faults);
        let of_loads = random.below(length / 3 + 1).min(loads);
        let of_flags = (length - of_faults - of_loads).min(flags);
        let mut rule: Vec<i16> = some(faults, of_faults, random).into_iter().map(fault).collect();
        rule.extend(some(loads, of_loads, random).into_iter().map(load));
        rule.extend(some(flags, of_flags, random).into_iter().map(flag));
        rule.iter_mut().for_each(|literal| *literal *= random.pick(&[1, -1]));
        formula.add(&rule);
    }
    formula.clauses.truncate(rules);
    formula
}

fn prefix(plan: Plan) -> Vec<Variable> {
    let Plan { flags, loads, faults, order, .. } = plan;
    let number = |index: usize| index as i16 + 1;
    let mut prefix: Vec<Variable> = vec![];
    let group = |range: std::ops::Range<usize>, quantifier| {
        range.map(move |index| Variable { number: number(index), quantifier })
    };
    let loads_range = flags..flags + loads;
    let faults_range = flags + loads..flags + loads + faults;
    prefix.extend(group(0..flags, Quantifier::Free));
    match order {
        Order::LoadsFirst => {
            prefix.extend(group(loads_range, Quantifier::Forall));
            prefix.extend(group(faults_range, Quantifier::Exists));
        }
        Order::FaultsFirst => {
            prefix.extend(group(faults_range, Quantifier::Exists));
            prefix.extend(group(loads_range, Quantifier::Forall));
        }
    }
    prefix
}

fn some(count: usize, wanted: usize, random: &mut Random) -> Vec<usize> {
    let mut all: Vec<usize> = (0..count).collect();
    random.shuffle(&mut all);
    all.truncate(wanted);
    all
}

pub fn examples() -> io::Result<Vec<Book>> {
    let folder = Path::new(env!("CARGO_MANIFEST_DIR")).join("../examples");
    let mut books = vec![];
    for entry in fs::read_dir(folder)? {
        let path = entry?.path();
        if path.extension().is_some_and(|extension| extension == "book") {
            let formula = text::open(&fs::read(&path)?, &Options::paper()).expect("it opens");
            let stem = path.file_stem().and_then(|stem| stem.to_str()).expect("an ASCII name");
            books.push(Book { name: format!("examples/{stem}.book"), formula });
        }
    }
    books.sort_by_key(|book| book.formula.prefix.len());
    Ok(books)
}

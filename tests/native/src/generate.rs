//! Random formulas, stores and calls, at the limits of 40 and 255 and at a book's own.

use crate::budget::{self, Walk};
use compare::constraint::{Constraint, Polarity};
use compare::random::Random;
use compare::{
    refusal, Call, Formula, Limits, Literal, Options, Quantifier, Reading, Store, Variable,
};

/// How large a formula and its searches may be.
#[derive(Clone, Copy, Debug)]
pub struct Shape {
    pub variables: (usize, usize),
    pub clauses: (usize, usize),
    pub literals: (usize, usize),
    /// Nodes that one search may visit.
    pub visits: u64,
    pub calls: usize,
}

const fn shape(
    variables: (usize, usize),
    clauses: (usize, usize),
    literals: (usize, usize),
    visits: u64,
    calls: usize,
) -> Shape {
    Shape { variables, clauses, literals, visits, calls }
}

/// From small to large. A round takes each once.
pub const SHAPES: [Shape; 12] = [
    shape((0, 4), (0, 5), (1, 3), 60, 8),
    shape((2, 7), (1, 12), (1, 4), 300, 12),
    shape((3, 8), (4, 20), (2, 4), 600, 30),
    shape((5, 10), (6, 40), (2, 5), 2_000, 12),
    shape((8, 14), (10, 60), (2, 6), 2_000, 20),
    shape((10, 18), (15, 90), (1, 6), 2_000, 12),
    shape((9, 13), (8, 24), (3, 5), 6_000, 12),
    shape((16, 28), (20, 160), (1, 10), 1_500, 10),
    shape((20, 40), (0, 255), (1, 16), 1_000, 10),
    shape((30, 40), (40, 255), (10, 16), 800, 8),
    shape((40, 40), (60, 255), (1, 5), 1_000, 10),
    shape((3, 40), (246, 255), (1, 4), 400, 24),
];

/// A formula and the limits of its book.
#[derive(Clone, Debug)]
pub struct Book {
    pub formula: Formula,
    pub limits: Limits,
}

impl Book {
    /// Under limits that hold it: in half of the books 40 and 255, as they are usual; else just what it needs, some more,
    /// or more than is usual.
    pub fn draw(shape: Shape, walk: Walk, random: &mut Random) -> Book {
        if random.one_in(2) {
            let limits = Limits::PAPER;
            return Book { formula: shape.formula(&limits, walk, random), limits };
        }
        let wide = random.one_in(12);
        let numbers = if wide { 1_000 } else { random.pick(&[40, 41, 47, 64, 100]) };
        let drawn = Limits::own(numbers, random.pick(&[255, 255, 256, 300]));
        let formula = shape.formula(&drawn, walk, random);
        let limits = Book::limits(&formula, &drawn, random);
        Book { formula, limits }
    }

    /// Limits that hold a formula, up to those under which it was drawn.
    pub fn limits(formula: &Formula, drawn: &Limits, random: &mut Random) -> Limits {
        let highest = formula.prefix.iter().map(|v| v.number as usize).max().unwrap_or(0);
        let (most, rules) = (drawn.numbers as usize, formula.clauses.len());
        let more = |least: usize, most: usize, random: &mut Random| match random.below(4) {
            0 => least,
            1 => most.max(least),
            _ => least + random.below(6),
        };
        Limits::own(more(highest, most, random), more(rules, drawn.clauses, random))
    }
}

impl Shape {
    pub fn formula(&self, limits: &Limits, walk: Walk, random: &mut Random) -> Formula {
        let count = random.between(self.variables.0, self.variables.1);
        let mut formula = Formula { prefix: prefix(count, limits, random), clauses: vec![] };
        if count == 0 {
            return formula;
        }
        let style = Style::any(random);
        let most = self.clauses.1.min(limits.clauses);
        for _ in 0..random.between(self.clauses.0.min(most), most) {
            let again = random.one_in(12) && !formula.clauses.is_empty();
            if again {
                let index = random.below(formula.clauses.len());
                formula.clauses.push(formula.clauses[index].clone());
            } else {
                let literals = self.literals(&formula, style, random);
                formula.add(&literals);
            }
        }
        self.tame(&mut formula, limits, walk, random);
        formula
    }

    /// Short clauses on early places, until a card is affordable. At times one call in a list can
    /// still be too long; it is left out then.
    fn tame(&self, formula: &mut Formula, limits: &Limits, walk: Walk, random: &mut Random) {
        let mut place = 0;
        while place < formula.prefix.len() && !budget::within(formula, &[], walk, self.visits) {
            place += random.between(0, 2);
            let index = place.min(formula.prefix.len() - 1);
            let partner = random.between(index, (index + 3).min(formula.prefix.len() - 1));
            let literal = |i: usize, random: &mut Random| {
                let number = formula.prefix[i].number;
                if random.one_in(2) {
                    -number
                } else {
                    number
                }
            };
            let mut clause = vec![literal(index, random)];
            if partner != index && random.one_in(2) {
                clause.push(literal(partner, random));
            }
            if formula.clauses.len() == limits.clauses {
                let replaced = random.below(limits.clauses);
                formula.clauses.remove(replaced);
            }
            formula.add(&clause);
            place += usize::from(random.one_in(4));
        }
    }

    fn literals(&self, formula: &Formula, style: Style, random: &mut Random) -> Vec<Literal> {
        let count = formula.prefix.len();
        let low = self.literals.0.min(count);
        let length = random.between(low, self.literals.1.min(count));
        let mut literals: Vec<Literal> = vec![];
        while literals.len() < length {
            let draws = (0..style.draws).map(|_| random.below(count));
            let number = formula.prefix[draws.min().unwrap_or(0)].number;
            if !literals.iter().any(|literal| literal.unsigned_abs() == number as u16) {
                let off = random.below(100) < style.off;
                literals.push(if off { -number } else { number });
            }
        }
        literals
    }

    /// A list of calls on a book, refused ones among them. Every search is affordable.
    pub fn calls(&self, book: &Book, walk: Walk, random: &mut Random) -> Vec<Call> {
        let Book { mut formula, limits } = book.clone();
        let style = Style::any(random);
        let favourite = random.below(3);
        let mut calls = vec![];
        for _ in 0..random.between(1, self.calls) {
            let kind = if random.one_in(2) { favourite } else { random.below(3) };
            let call = match kind {
                _ if random.one_in(16) => Call::Forget,
                _ if random.one_in(8) => Call::Withdraw,
                _ if random.one_in(12) => write(&formula, random),
                _ if random.one_in(10) => one(&formula, &limits, random),
                0 if random.one_in(4) => closest(&formula, random),
                0 => card(&formula, random),
                1 => Call::Query(query(&formula, random)),
                _ => self.rule(&formula, &limits, style, random),
            };
            if !budget::affords(&formula, &call, walk, self.visits) {
                continue;
            }
            follow(&mut formula, &limits, &call);
            calls.push(call);
        }
        calls
    }

    /// A long list that mixes all calls, its rules taken back about as often as they are added, so that they do not settle
    /// everything. Every search is affordable.
    pub fn long(&self, book: &Book, random: &mut Random) -> Vec<Call> {
        let Book { mut formula, limits } = book.clone();
        let style = Style::any(random);
        let (mut calls, usual) = (vec![], formula.clauses.len());
        for _ in 0..random.between(self.calls / 4, self.calls) {
            let more = formula.clauses.len() > usual + random.below(3);
            let call = match random.below(40) {
                _ if more && random.one_in(2) => Call::Withdraw,
                0..=7 => self.rule(&formula, &limits, style, random),
                8 | 9 => one(&formula, &limits, random),
                10..=12 => Call::Withdraw,
                13 => Call::Forget,
                14..=29 => Call::Query(query(&formula, random)),
                30..=36 => card(&formula, random),
                37 | 38 => closest(&formula, random),
                _ => write(&formula, random),
            };
            if budget::affords(&formula, &call, Walk::Plain, self.visits) {
                follow(&mut formula, &limits, &call);
                calls.push(call);
            }
        }
        calls
    }

    fn rule(&self, formula: &Formula, limits: &Limits, style: Style, random: &mut Random) -> Call {
        let mut literals = match formula.prefix.is_empty() {
            true => vec![],
            false => self.literals(formula, style, random),
        };
        if random.one_in(3) {
            spoil_rule(&mut literals, formula, limits, random);
        }
        Call::Rule(literals)
    }
}

/// An exactly-one form, mostly of few literals; at times with a fault.
fn one(formula: &Formula, limits: &Limits, random: &mut Random) -> Call {
    let mut literals: Vec<Literal> = formula.prefix.iter().map(|v| v.number).collect();
    random.shuffle(&mut literals);
    literals.truncate(random.pick(&[1, 2, 2, 3, 3, 4, 5, 8, 15, 16, 17]));
    literals.iter_mut().for_each(|literal| *literal *= random.pick(&[1, 1, -1]));
    if random.one_in(4) {
        spoil_rule(&mut literals, formula, limits, random);
    }
    Call::One(literals)
}

/// The formula after a call.
pub fn follow(formula: &mut Formula, limits: &Limits, call: &Call) {
    let options = Options::with(*limits);
    match call {
        Call::Rule(literals) => {
            let wide: Vec<i32> = literals.iter().map(|&literal| literal.into()).collect();
            if refusal::of_rule(formula, &wide, &options).is_none() {
                formula.add(literals);
            }
        }
        Call::One(literals) => {
            let wide: Vec<i32> = literals.iter().map(|&literal| literal.into()).collect();
            if refusal::of_one(formula, &wide, &options).is_none() {
                let rules = compare::one::rules(literals, &options);
                rules.iter().for_each(|rule| formula.add(rule));
            }
        }
        Call::Withdraw => drop(formula.clauses.pop()),
        _ => {}
    }
}

/// How the clauses of one formula are drawn.
#[derive(Clone, Copy)]
struct Style {
    /// A literal has the first of so many places.
    draws: usize,
    /// How many literals of 100 are negative.
    off: usize,
}

impl Style {
    fn any(random: &mut Random) -> Style {
        Style { draws: random.pick(&[1, 1, 2, 3]), off: random.pick(&[50, 50, 30, 70, 15]) }
    }
}

/// Numbers and places are unrelated; every order of quantifiers can come.
fn prefix(count: usize, limits: &Limits, random: &mut Random) -> Vec<Variable> {
    let mut numbers: Vec<i16> = (1..=limits.numbers).collect();
    match random.below(4) {
        0 => {}
        1 => numbers.reverse(),
        _ => random.shuffle(&mut numbers),
    }
    let free = match random.below(6) {
        0 => 0,
        1 => count,
        _ => random.below(count + 1),
    };
    let rest = count - free;
    let mut quantifiers = vec![Quantifier::Free; free];
    let both = [Quantifier::Exists, Quantifier::Forall];
    let first = random.pick(&both);
    let second = if first == both[0] { both[1] } else { both[0] };
    match random.below(5) {
        0 => quantifiers.extend(vec![first; rest]),
        1 => {
            let cut = random.below(rest + 1);
            quantifiers.extend((0..rest).map(|index| if index < cut { first } else { second }));
        }
        2 => quantifiers.extend((0..rest).map(|index| both[(index + free) % 2])),
        _ => quantifiers.extend((0..rest).map(|_| random.pick(&both))),
    }
    let variable = |(number, quantifier)| Variable { number, quantifier };
    numbers.into_iter().zip(quantifiers).map(variable).collect()
}

/// Flags, then forall, then exists variables that can satisfy most clauses: much is learned, of
/// both polarities.
pub fn covering(limits: &Limits, random: &mut Random) -> Formula {
    let (free, forall, exists) = (random.between(6, 9), random.between(3, 5), random.between(5, 8));
    let outer = free + forall;
    let count = outer + exists;
    let mut prefix = prefix(count, limits, random);
    for (index, variable) in prefix.iter_mut().enumerate() {
        variable.quantifier = match index {
            _ if index < free => Quantifier::Free,
            _ if index < outer => Quantifier::Forall,
            _ => Quantifier::Exists,
        };
    }
    let mut formula = Formula { prefix, clauses: vec![] };
    let few = random.one_in(2);
    for _ in 0..random.between(4 * exists, 5 * exists) {
        let mut places = some_places(0..outer, random.between(2, 3) - usize::from(few), random);
        places.extend(some_places(outer..count, 1 + usize::from(few), random));
        let numbers = places.iter().map(|&place| formula.prefix[place].number);
        let literals: Vec<Literal> = numbers.map(|n| n * random.pick(&[1, -1])).collect();
        formula.add(&literals);
    }
    formula
}

fn some_places(all: std::ops::Range<usize>, count: usize, random: &mut Random) -> Vec<usize> {
    let mut places: Vec<usize> = all.collect();
    random.shuffle(&mut places);
    places.truncate(count);
    places
}

/// A clause that stands already, with one literal less where it has several: it leaves the search
/// affordable.
pub fn again(formula: &Formula, random: &mut Random) -> Vec<Literal> {
    let mut clause = formula.clauses[random.below(formula.clauses.len())].clone();
    if clause.len() > 1 {
        clause.remove(random.below(clause.len()));
    }
    clause
}

const OTHER_NUMBERS: [i16; 15] =
    [0, 1, 40, 41, -41, -1, -40, 99, 255, 1_000, 1_001, -1_001, i16::MAX, -i16::MAX, i16::MIN];

/// One to three faults: a number that no variable has, one that is not declared, a variable
/// twice, no literal, over 16 literals.
fn spoil_rule(
    literals: &mut Vec<Literal>,
    formula: &Formula,
    limits: &Limits,
    random: &mut Random,
) {
    for _ in 0..random.pick(&[1, 1, 2, 3]) {
        match random.below(7) {
            0 => literals.clear(),
            1 => {
                let length = random.pick(&[16, 17, 17, 18, 40, 41, 300]);
                let some = |random: &mut Random| any_declared(formula, random);
                while literals.len() < length {
                    literals.push(some(random));
                }
            }
            2 => {
                // As many literals as there may be, and no fault but perhaps one.
                let mut all: Vec<i16> = formula.prefix.iter().map(|v| v.number).collect();
                random.shuffle(&mut all);
                all.truncate(random.pick(&[15, 16, 17]));
                *literals = all;
            }
            3 if !literals.is_empty() => {
                let repeated = random.pick(literals);
                let sign = random.pick(&[1, -1]);
                insert(literals, repeated.saturating_mul(sign), random);
            }
            4 => insert(literals, any_declared(formula, random), random),
            5 => {
                // Up to just above the own limit.
                let number = random.between(1, limits.numbers as usize + 1) as i16;
                insert(literals, random.pick(&[number, limits.numbers + 1]), random)
            }
            _ => insert(literals, random.pick(&OTHER_NUMBERS), random),
        }
    }
}

fn any_declared(formula: &Formula, random: &mut Random) -> Literal {
    if formula.prefix.is_empty() {
        return 1;
    }
    let number = formula.prefix[random.below(formula.prefix.len())].number;
    if random.one_in(2) {
        -number
    } else {
        number
    }
}

fn insert(numbers: &mut Vec<i16>, number: i16, random: &mut Random) {
    numbers.insert(random.below(numbers.len() + 1), number);
}

/// The flags that are on and those that are off, in any order; a few of them open in a third of the queries, many
/// in some; at times with a fault.
fn query(formula: &Formula, random: &mut Random) -> Reading {
    let open = random.pick(&[0, 0, 0, 0, 10, 30]);
    reading(formula, open, random)
}

/// A reading to which the closest one is asked: full, but for faults.
fn closest(formula: &Formula, random: &mut Random) -> Call {
    let open = random.pick(&[0, 0, 0, 0, 0, 0, 0, 10]);
    Call::Closest(reading(formula, open, random), table(formula, random))
}

/// With so many flags of 100 open.
fn reading(formula: &Formula, open: usize, random: &mut Random) -> Reading {
    let free = &formula.prefix[..formula.free_count()];
    let rate = random.pick(&[0, 20, 50, 50, 80, 100]);
    let mut reading = Reading::default();
    for flag in free.iter().map(|flag| flag.number) {
        let on = random.below(100) < rate;
        let list = if on { &mut reading.on } else { &mut reading.off };
        list.extend((random.below(100) >= open).then_some(flag));
    }
    random.shuffle(&mut reading.on);
    random.shuffle(&mut reading.off);
    if random.one_in(4) {
        spoil_reading(&mut reading, formula, random);
    }
    reading
}

/// A fault in either list, or a number in both.
fn spoil_reading(reading: &mut Reading, formula: &Formula, random: &mut Random) {
    let Reading { on, off } = reading;
    let (list, other) = if random.one_in(2) { (on, off) } else { (off, on) };
    match random.below(6) {
        0 if !list.is_empty() => {
            let repeated = random.pick(list);
            insert(list, repeated, random);
        }
        1 if !list.is_empty() => {
            let index = random.below(list.len());
            list[index] = -list[index];
        }
        2 => insert(list, any_declared(formula, random), random),
        3 => {
            let number = random.pick(&OTHER_NUMBERS);
            let length = random.pick(&[1, 1, 41, 200]);
            list.extend(vec![number; length]);
        }
        4 if !list.is_empty() => {
            let both = random.pick(list);
            insert(other, both, random);
        }
        _ => insert(list, random.pick(&OTHER_NUMBERS), random),
    }
}

/// A card or keep card.
fn card(formula: &Formula, random: &mut Random) -> Call {
    let length = table(formula, random);
    match random.one_in(3) {
        true => Call::KeepCard(length),
        false => Call::Card(length),
    }
}

/// Tables that hold few lines or many, and lengths that are no multiple of a line's.
fn table(formula: &Formula, random: &mut Random) -> usize {
    let free = formula.free_count();
    match random.below(5) {
        0 => random.below(3 * free + 3),
        1 => (free * random.below(12)).saturating_add_signed(random.between(0, 2) as isize - 1),
        2 => random.below(40 * free + 2),
        3 => free * random.between(60, 600) + random.below(free + 1),
        _ => 65_536,
    }
}

/// Tables near the length of the text, short ones and long ones.
fn write(formula: &Formula, random: &mut Random) -> Call {
    let text = compare::write::text(formula, &Options::paper()).len();
    let length = match random.below(4) {
        0 => random.below(text),
        1 => text + random.below(200),
        _ => text.saturating_add_signed(random.between(0, 2) as isize - 1),
    };
    Call::Write(length)
}

/// A record that a learned clause can have: most often one of the highest.
pub fn record(formula: &Formula, random: &mut Random) -> usize {
    let standing = formula.clauses.len();
    match random.below(3) {
        0 => random.below(standing + 1),
        _ => standing.saturating_sub(random.below(4)),
    }
}

/// A well-formed store that calls need not reach: records stand in any order.
pub fn store(formula: &Formula, random: &mut Random) -> Store {
    let most = random.pick(&[2, 6, 20, 64, 64]);
    let (shortest, longest) = random.pick(&[(1, 3), (2, 5), (4, 8), (6, 12), (1, 40)]);
    let options = Options::paper();
    let mut entries = |polarity| {
        let mut list: Vec<Vec<Literal>> = vec![];
        let count = if random.one_in(2) { most } else { random.below(most + 1) };
        while list.len() < count {
            if random.one_in(8) && !list.is_empty() {
                let index = random.below(list.len());
                list.push(list[index].clone());
                continue;
            }
            let mut literals: Vec<Literal> = formula.prefix.iter().map(|v| v.number).collect();
            random.shuffle(&mut literals);
            let length = random.between(shortest.min(literals.len()), longest.min(literals.len()));
            literals.truncate(length);
            let sign = |literal: &mut Literal| *literal *= random.pick(&[1, -1]);
            literals.iter_mut().for_each(sign);
            let mut entry = Constraint::new(polarity, literals);
            entry.order(formula, &options);
            entry.reduce(formula, &options);
            // An empty entry decides every start node: seldom.
            if entry.literals.is_empty() && !random.one_in(100) {
                if formula.prefix.iter().all(|v| v.quantifier == polarity.drops()) {
                    break;
                }
                continue;
            }
            list.push(entry.literals);
        }
        list
    };
    let clauses = entries(Polarity::Clause);
    let cubes = entries(Polarity::Cube);
    let records = clauses.iter().map(|_| record(formula, random)).collect();
    Store { clauses, records, cubes }
}

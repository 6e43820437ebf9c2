//! Books of up to 1,000 variables whose answers are known: a small book among variables that no rule needs, and along
//! chains of variables that are equal to its own. What the small book answers by truth alone decides each call, as far
//! as no ceiling stops it.

use crate::answer::{Answer, Call, Said, Subject};
use crate::finder::{Shape, Source};
use crate::formula::{Formula, Literal, Quantifier, Variable};
use crate::options::{Limits, Options, MOST_FLAGS};
use crate::plain_run::PlainRun;
use crate::random::Random;
use crate::reading::Reading;
use crate::table;
use crate::truth::{self, Verdict};

/// How a small book is widened.
#[derive(Clone, Copy, Debug)]
pub struct Plan {
    pub small: Shape,
    /// Flags of no use before the last flag of use, and behind it.
    pub flags: (usize, usize),
    /// Quantified variables of no use.
    pub unused: usize,
    /// Variables that are equal to those of the small book.
    pub links: usize,
    /// Variables with a rule of their own that gives them their value: a rule may have their false literals too, and
    /// what is learned from it has many literals.
    pub forced: usize,
}

impl Plan {
    /// From 10 variables to nearly 1,000, by turns.
    pub fn of_attempt(attempt: usize, random: &mut Random) -> Plan {
        let small = Shape { calls: 8, ..Shape::of_attempt(attempt / 2) };
        let most = [20, 60, 200, 500, 940][attempt % 5];
        let forced = random.pick(&[0, 0, 20, 70]).min(most);
        let links = random.below(most - forced + 1);
        let behind = if random.one_in(3) { 30 } else { 4 };
        let flags = (random.below(3), random.below(behind));
        Plan { small, flags, unused: most - links - forced, links, forced }
    }
}

#[derive(Clone, Copy)]
enum Item {
    /// A variable of the small book, by its index, or one that is equal to it.
    Used(usize),
    Link(usize),
    Unused,
    Forced,
}

/// A wide book, the small one in it, and calls on both.
#[derive(Clone, Debug)]
pub struct Wide {
    pub small: Formula,
    pub small_limits: Limits,
    pub formula: Formula,
    pub limits: Limits,
    /// Calls on the small book.
    pub calls: Vec<Call>,
    /// For each variable of the small book, by its index, the numbers that are equal to it, its own first.
    names: Vec<Vec<i16>>,
    /// The false literals of the variables whose value is given.
    forced: Vec<Literal>,
    /// By place of the wide book's flags: the index of the flag of the small book; none for one of no use.
    flags: Vec<Option<usize>>,
}

impl Wide {
    pub fn draw(plan: Plan, random: &mut Random) -> Wide {
        let case = plan.small.case(Source::Opened, random);
        let small = case.state.formula;
        let items = items(plan, &small, random);
        let numbers = numbers(items.len(), random);
        let (mut names, mut forced) = (vec![vec![]; small.prefix.len()], vec![]);
        let mut formula = Formula::default();
        for ((item, quantifier), &number) in items.iter().zip(&numbers) {
            formula.prefix.push(Variable { number, quantifier: *quantifier });
            match item {
                Item::Used(index) => names[*index].insert(0, number),
                Item::Link(index) => names[*index].push(number),
                Item::Forced => forced.push(number * random.pick(&[1, -1])),
                Item::Unused => {}
            }
        }
        let is_flag = |(_, quantifier): &&(Item, Quantifier)| *quantifier == Quantifier::Free;
        let flag = |(item, _): &(Item, Quantifier)| match item {
            Item::Used(index) => Some(*index),
            _ => None,
        };
        let flags = items.iter().take_while(is_flag).map(flag).collect();
        let highest = numbers.iter().copied().max().unwrap_or(0);
        let small_limits = Limits {
            numbers: small.prefix.len() as i16 + 2,
            clauses: small.clauses.len() + random.below(4),
            ..Limits::PAPER
        };
        let limits = Limits { numbers: highest + 1, ..Limits::HIGHEST };
        let calls = case.calls;
        let mut wide = Wide { small, small_limits, formula, limits, calls, names, forced, flags };
        wide.add_rules(random);
        // As many rules are added until 20 as in the small book.
        let links = wide.formula.clauses.len() - wide.small.clauses.len();
        wide.limits.clauses = wide.small_limits.clauses + links;
        wide
    }

    /// The equalities of the chains, each name to one before it; then the rules of the small book, in any names.
    fn add_rules(&mut self, random: &mut Random) {
        for names in &self.names {
            for (index, &name) in names.iter().enumerate().skip(1) {
                let near = random.pick(&[true, true, false]);
                let other = if near { names[index - 1] } else { names[random.below(index)] };
                self.formula.add(&[-other, name]);
                self.formula.add(&[other, -name]);
            }
        }
        for literal in &self.forced {
            self.formula.add(&[-literal]);
        }
        for clause in self.small.clauses.clone() {
            let literals = self.literals(&clause, random);
            let literals = self.with_false_ones(literals, random);
            self.formula.add(&literals);
        }
    }

    pub fn options(&self) -> Options {
        Options::with(self.limits)
    }

    fn small_index(&self, number: i16) -> Option<usize> {
        let number = number.unsigned_abs();
        self.small.prefix.iter().position(|variable| variable.number.unsigned_abs() == number)
    }

    /// A number that is no variable's, refused for the reason for which the small book refuses its own.
    fn other(&self, literal: Literal) -> Literal {
        let outside = [0, i16::MIN].contains(&literal);
        match literal.unsigned_abs() <= self.small_limits.numbers as u16 {
            _ if outside => literal,
            // The highest number of the limits is not declared.
            true => self.limits.numbers * literal.signum(),
            false => (self.limits.numbers + 1) * literal.signum(),
        }
    }

    /// Literals of a rule; a variable has one name throughout it.
    fn literals(&self, literals: &[Literal], random: &mut Random) -> Vec<Literal> {
        let drawn: Vec<i16> = self.names.iter().map(|names| random.pick(names)).collect();
        let literal = |&literal: &Literal| match self.small_index(literal) {
            Some(index) => drawn[index] * literal.signum(),
            None => self.other(literal),
        };
        literals.iter().map(literal).collect()
    }

    /// A rule with some literals more that are false, as far as a rule goes.
    fn with_false_ones(&self, mut literals: Vec<Literal>, random: &mut Random) -> Vec<Literal> {
        let room = Limits::PAPER.literals.saturating_sub(literals.len());
        if !literals.is_empty() && !random.one_in(4) {
            let mut others = self.forced.clone();
            random.shuffle(&mut others);
            literals.extend(others.iter().take(room));
            random.shuffle(&mut literals);
        }
        literals
    }

    /// A list of a query. A number below 0 names no flag in either book.
    fn named(&self, numbers: &[i16]) -> Vec<i16> {
        let number = |&number: &i16| match self.small_index(number) {
            Some(index) => self.names[index][0] * number.signum(),
            None => self.other(number),
        };
        numbers.iter().map(number).collect()
    }

    /// The same reading; where it is full, with the flags of no use at random.
    fn reading(&self, reading: &Reading, random: &mut Random) -> Reading {
        let mut wide = Reading::new(&self.named(&reading.on), &self.named(&reading.off));
        if reading.is_full(&self.small) {
            for (variable, used) in self.formula.prefix.iter().zip(&self.flags) {
                if used.is_none() {
                    let list = if random.one_in(2) { &mut wide.on } else { &mut wide.off };
                    list.push(variable.number);
                }
            }
        }
        wide
    }

    /// A table for as many lines; one for some more where the small book's lines need no byte.
    fn table(&self, length: usize, random: &mut Random) -> usize {
        let (small, flags) = (self.small.free_count(), self.flags.len());
        match length.checked_div(small) {
            Some(lines) => (lines * flags + random.below(flags)).min(1 << 16),
            None => 1 << 12,
        }
    }

    /// A call of the small book, on the wide one.
    pub fn call(&self, call: &Call, random: &mut Random) -> Call {
        match call {
            Call::Rule(literals) => {
                let literals = self.literals(literals, random);
                let faultless = literals.iter().all(|literal| self.declares(*literal));
                Call::Rule(match faultless {
                    true => self.with_false_ones(literals, random),
                    false => literals,
                })
            }
            Call::One(literals) => Call::One(self.literals(literals, random)),
            Call::Query(reading) => Call::Query(self.reading(reading, random)),
            Call::Card(length) => Call::Card(self.table(*length, random)),
            Call::KeepCard(length) => Call::KeepCard(self.table(*length, random)),
            Call::Closest(reading, length) => {
                Call::Closest(self.reading(reading, random), self.table(*length, random))
            }
            Call::Withdraw | Call::Forget | Call::Write(_) => call.clone(),
        }
    }

    fn declares(&self, literal: Literal) -> bool {
        let number = literal.unsigned_abs();
        self.names.iter().flatten().any(|name| name.unsigned_abs() == number)
    }

    /// The lines of a verdict below a node of the wide book's flags, by truth in the small one.
    fn lines(&self, small: &Formula, node: &mut Vec<bool>, wanted: Verdict) -> Vec<Vec<bool>> {
        let used = self.flags.iter().zip(&*node).filter(|(flag, _)| flag.is_some());
        let values: Vec<bool> = used.map(|(_, value)| *value).collect();
        match truth::verdict(small, &values) {
            Verdict::Mixed => {
                let mut found = vec![];
                for value in [false, true] {
                    node.push(value);
                    found.extend(self.lines(small, node, wanted));
                    node.pop();
                }
                found
            }
            verdict if verdict == wanted => vec![node.clone()],
            _ => vec![],
        }
    }
}

/// What the small book says to calls, and what the wide one has to say then; the visits are not known.
#[derive(Clone, Debug)]
pub struct Known<'a> {
    wide: &'a Wide,
    plain: PlainRun,
}

impl Known<'_> {
    pub fn of(wide: &Wide) -> Known<'_> {
        Known { wide, plain: PlainRun::new(wide.small.clone(), wide.small_limits) }
    }

    /// Whether a withdrawal takes a rule of the small book.
    pub fn has_rules(&self) -> bool {
        !self.plain.formula.clauses.is_empty()
    }

    /// The answer of the wide book to a call that is the small book's `call` there.
    pub fn answer(&mut self, call: &Call, wide_call: &Call) -> Answer {
        let small = self.plain.call(call);
        let wanted = match call {
            Call::KeepCard(_) => Verdict::No,
            Call::Card(_) | Call::Closest(..) => Verdict::Yes,
            _ => return Answer::new(small.said),
        };
        let length = wide_call.table();
        let mut answer = Answer { said: small.said, table: vec![0; length], visits: 0 };
        if small.said == Said::Refused(8) {
            return answer;
        }
        let lines = self.wide.lines(&self.plain.formula, &mut vec![], wanted);
        if self.wide.flags.len() * lines.len() > length {
            answer.said = Said::Refused(21);
            return answer;
        }
        table::write(&lines, self.wide.flags.len(), &mut answer.table, &self.wide.options());
        answer.said = match wide_call {
            Call::Closest(reading, _) => self.closest(reading, lines.len()),
            _ => Said::Lines(lines.len()),
        };
        answer
    }

    /// The nearest reading of the small book, the flags of no use as they were given.
    fn closest(&self, reading: &Reading, lines: usize) -> Said {
        let given: Vec<bool> =
            reading.values(&self.wide.formula).iter().map(|value| *value == Some(true)).collect();
        let used = self.wide.flags.iter().zip(&given).filter(|(flag, _)| flag.is_some());
        let small: Vec<bool> = used.map(|(_, value)| *value).collect();
        let Some((nearest, differs)) = truth::closest(&self.plain.formula, &small) else {
            return Said::Refused(35);
        };
        let mut nearest = nearest.into_iter();
        let mut found = crate::closest::Closest { reading: [0; MOST_FLAGS], differs, lines };
        for (place, (flag, value)) in self.wide.flags.iter().zip(given).enumerate() {
            let value = if flag.is_some() { nearest.next() == Some(true) } else { value };
            found.reading[place] = 1 + u8::from(value);
        }
        Said::Closest(found)
    }
}

/// The prefix: the small book's variables in their order, flags first.
fn items(plan: Plan, small: &Formula, random: &mut Random) -> Vec<(Item, Quantifier)> {
    let used = |index: usize| (Item::Used(index), small.prefix[index].quantifier);
    let free = small.free_count();
    let mut flags: Vec<_> = (0..free).map(used).collect();
    for _ in 0..plan.flags.0 {
        flags.insert(random.below(flags.len() + 1), (Item::Unused, Quantifier::Free));
    }
    flags.extend(vec![(Item::Unused, Quantifier::Free); plan.flags.1]);
    flags.truncate(MOST_FLAGS);
    let mut groups: Vec<_> = (free..small.prefix.len()).map(used).collect();
    for _ in 0..plan.links {
        if small.prefix.is_empty() {
            break;
        }
        // Behind its variable, most of them near it.
        let index = random.below(small.prefix.len());
        let of = |(item, _): &(Item, Quantifier)| matches!(item, Item::Used(i) if *i == index);
        let first = groups.iter().position(of).map_or(0, |at| at + 1);
        let last = if random.one_in(3) { groups.len() } else { groups.len().min(first + 5) };
        groups.insert(random.between(first, last), (Item::Link(index), Quantifier::Exists));
    }
    for _ in 0..plan.forced {
        let near = groups.len().min(8);
        groups.insert(random.below(near + 1), (Item::Forced, Quantifier::Exists));
    }
    for _ in 0..plan.unused {
        let kind = random.pick(&[Quantifier::Exists, Quantifier::Forall]);
        let near = groups.len().min(if random.one_in(2) { 8 } else { usize::MAX });
        groups.insert(groups.len() - random.below(near + 1), (Item::Unused, kind));
    }
    [flags, groups].concat()
}

/// The numbers of so many places, at most 999: as the places, or, where there are few, with gaps and in any order.
fn numbers(count: usize, random: &mut Random) -> Vec<i16> {
    let mut numbers: Vec<i16> = (1..=count as i16).collect();
    if count <= 70 && random.one_in(2) {
        numbers = (1..=999).collect();
        random.shuffle(&mut numbers);
        numbers.truncate(count);
        if random.one_in(2) {
            numbers.sort();
        }
    }
    numbers
}

//! The finder of step 1 alone, on nodes and clauses that no search need reach.

use compare::random::Random;
use compare::{Formula, Literal, Quantifier, Variable};

/// Cells of a clause.
pub const CLAUSE_WIDTH: usize = 16;

const FREE: u16 = 0;
const EXISTS: u16 = 1;
const FORALL: u16 = 2;

// Made by `tools/build search_finder`.
#[link(name = "search_finder", kind = "static")]
extern "C" {
    fn search_finder_lowest_dead(
        clauses: *const i16,
        clause_cells: usize,
        sizes: *const u16,
        size_cells: usize,
        places: *const u16,
        place_cells: usize,
        kinds: *const u16,
        kind_cells: usize,
        values: *const u8,
        value_cells: usize,
    ) -> usize;
}

/// A value by number: 0 is open.
const OFF: u8 = 1;
const ON: u8 = 2;

#[derive(Clone, Debug, Default)]
pub struct Question {
    pub formula: Formula,
    pub node: Vec<bool>,
}

/// The tables of a question, as the call takes them.
struct Tables {
    clauses: Vec<i16>,
    sizes: Vec<u16>,
    places: Vec<u16>,
    kinds: Vec<u16>,
    values: Vec<u8>,
}

impl Tables {
    /// Cells of a clause behind its literals hold any number.
    fn of(question: &Question) -> Tables {
        let Formula { prefix, clauses } = &question.formula;
        let numbers = prefix.iter().map(|v| v.number as usize).max().unwrap_or(0) + 1;
        let mut tables = Tables {
            clauses: vec![-1; clauses.len() * CLAUSE_WIDTH],
            sizes: vec![clauses.len() as u16],
            places: vec![0; numbers],
            kinds: vec![FREE; numbers],
            values: vec![0; numbers],
        };
        for (index, variable) in prefix.iter().enumerate() {
            let number = variable.number as usize;
            tables.places[number] = index as u16 + 1;
            tables.kinds[number] = match variable.quantifier {
                Quantifier::Free => FREE,
                Quantifier::Exists => EXISTS,
                Quantifier::Forall => FORALL,
            };
            if let Some(is_on) = question.node.get(index) {
                tables.values[number] = if *is_on { ON } else { OFF };
            }
        }
        for (index, clause) in clauses.iter().enumerate() {
            let from = index * CLAUSE_WIDTH;
            tables.clauses[from..from + clause.len()].copy_from_slice(clause);
            tables.sizes.push(clause.len() as u16);
        }
        tables
    }

    fn lowest_dead(&self) -> usize {
        let Tables { clauses, sizes, places, kinds, values } = self;
        unsafe {
            search_finder_lowest_dead(
                clauses.as_ptr(),
                clauses.len(),
                sizes.as_ptr(),
                sizes.len(),
                places.as_ptr(),
                places.len(),
                kinds.as_ptr(),
                kinds.len(),
                values.as_ptr(),
                values.len(),
            )
        }
    }
}

/// The index of the clause that the compiled finder returns; none if it is the count of the clauses.
pub fn answer(question: &Question) -> Option<usize> {
    let index = Tables::of(question).lowest_dead();
    (index != question.formula.clauses.len()).then_some(index)
}

/// What the call says of clauses that do not lie within their table: their count, whatever it is.
pub fn answer_outside(question: &Question, cells: usize) -> usize {
    let mut tables = Tables::of(question);
    tables.clauses.truncate(cells);
    tables.lowest_dead()
}

/// A question: numbers up to 1,000 in any order, and many clauses that are dead.
pub fn draw(seed: u64, index: u64) -> Question {
    let mut random = Random::new(seed ^ (index << 20));
    let prefix = prefix(&mut random);
    let length = random.between(0, prefix.len());
    let node = (0..length).map(|_| random.one_in(2)).collect();
    let mut question = Question { formula: Formula { prefix, clauses: vec![] }, node };
    let most = random.pick(&[3, 8, 40, 255]);
    for _ in 0..random.between(0, most) {
        let clause = clause(&mut random, &question);
        if !clause.is_empty() {
            question.formula.add(&clause);
        }
    }
    question
}

fn prefix(random: &mut Random) -> Vec<Variable> {
    let most = random.pick(&[4, 12, 40]);
    let mut numbers: Vec<i16> = (1..=random.pick(&[40, 1_000])).collect();
    random.shuffle(&mut numbers);
    numbers.truncate(random.between(1, most));
    let free = random.between(0, numbers.len());
    let mut quantifier = Quantifier::Exists;
    let mut variables = vec![];
    for (index, number) in numbers.into_iter().enumerate() {
        if random.one_in(2) {
            quantifier = random.pick(&[Quantifier::Exists, Quantifier::Forall]);
        }
        let quantifier = if index < free { Quantifier::Free } else { quantifier };
        variables.push(Variable { number, quantifier });
    }
    variables
}

/// Most literals are false at the node, or open and forall.
fn clause(random: &mut Random, question: &Question) -> Vec<Literal> {
    let Question { formula, node } = question;
    let keeps_alive = |random: &mut Random| random.one_in(24);
    let mut clause = vec![];
    let mut places: Vec<usize> = (0..formula.prefix.len()).collect();
    random.shuffle(&mut places);
    for place in places.into_iter().take(random.between(1, CLAUSE_WIDTH)) {
        let Variable { number, quantifier } = formula.prefix[place];
        let is_false = node.get(place).map(|is_on| if *is_on { -number } else { number });
        match (is_false, keeps_alive(random)) {
            (Some(literal), false) => clause.push(literal),
            (Some(literal), true) => clause.push(-literal),
            (None, alive) if alive || quantifier == Quantifier::Forall => {
                clause.push(random.pick(&[number, -number]))
            }
            (None, _) => {}
        }
    }
    clause
}

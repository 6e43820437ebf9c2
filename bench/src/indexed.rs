//! The library's design of the search in plain Rust: a visit looks only at what its last step
//! changed. A literal is one code, twice its place and one more where it is positive, against one table
//! of statuses; clauses and entries are found by their last literal; the test of satisfied clauses goes
//! on where the parent's stopped. The tables are derived once the start node is open.
//!
//! What differs from the library: lists of rows for each last literal, not links; a reduced clause in a
//! row of its own; one struct, not tables lent one by one; and the places of the first true literals as
//! one word of bits, which ends at 64 places, where the library has a table by clause.

use crate::search::{self, Polarity, Solver, Value, ENTRIES};
use compare::Quantifier;
use std::collections::VecDeque;

const PLACES: usize = 41;
const CODES: usize = 2 * PLACES;

const OPEN: u8 = 0;
const FALSE: u8 = 1;
const TRUE: u8 = 2;

type Statuses = [u8; 256];

#[derive(Clone, Copy)]
struct Entry {
    cells: [u8; 40],
    length: usize,
}

impl Entry {
    const EMPTY: Entry = Entry { cells: [0; 40], length: 0 };

    fn codes(&self) -> &[u8] {
        &self.cells[..self.length]
    }

    fn push(&mut self, code: u8) {
        self.cells[self.length] = code;
        self.length += 1;
    }

    fn last_code(&self) -> usize {
        self.codes().last().map_or(0, |&code| code as usize)
    }

    fn last_place(&self) -> usize {
        self.codes().last().map_or(0, |&code| place(code))
    }
}

fn place(code: u8) -> usize {
    (code >> 1) as usize
}

fn all_are(codes: &[u8], statuses: &Statuses, wanted: u8) -> bool {
    codes.iter().all(|&code| statuses[code as usize] == wanted)
}

/// The entries of one polarity, in a ring, and for each last place the rows that have it, the oldest first.
#[derive(Clone)]
struct Entries {
    rows: Vec<Entry>,
    /// The row that the next entry takes where all are taken.
    oldest: usize,
    at: Vec<Vec<u8>>,
}

impl Entries {
    fn new() -> Entries {
        Entries { rows: vec![], oldest: 0, at: vec![vec![]; CODES] }
    }

    fn push(&mut self, entry: &Entry) {
        if self.rows.len() < ENTRIES {
            self.at[entry.last_code()].push(self.rows.len() as u8);
            self.rows.push(*entry);
            return;
        }
        let row = self.oldest;
        self.at[self.rows[row].last_code()].remove(0);
        self.at[entry.last_code()].push(row as u8);
        self.rows[row] = *entry;
        self.oldest = (row + 1) % ENTRIES;
    }

    fn find(&self, code: usize, statuses: &Statuses, wanted: u8) -> Option<&Entry> {
        let rows = self.at[code].iter().map(|&row| &self.rows[row as usize]);
        rows.into_iter().find(|entry| all_are(entry.codes(), statuses, wanted))
    }

    fn oldest_first(&self) -> impl Iterator<Item = &Entry> {
        self.rows[self.oldest..].iter().chain(&self.rows[..self.oldest])
    }
}

enum Outcome {
    Decided(Polarity, Entry),
    Mixed,
}

struct Search<'a> {
    solver: &'a mut Solver,
    /// The quantifier of each place.
    quantifiers: [Quantifier; PLACES],
    clauses: Vec<Entry>,
    /// The clauses under universal reduction, and those of each last code, in order of adding.
    reduced: Vec<Entry>,
    dying: Vec<Vec<u8>>,
    learned: Entries,
    cubes: Entries,
    statuses: Statuses,
}

/// Where a visit stands: how many places have values, how many leading clauses are known to be
/// satisfied, and the places of their first true literals.
#[derive(Clone, Copy)]
struct Position {
    length: usize,
    satisfied: usize,
    marks: u64,
}

/// The search below an open start node. None: Mixed.
pub fn search(solver: &mut Solver, start: usize) -> Option<Polarity> {
    let mut search = Search::of(solver);
    for place in 1..=start {
        let number = search.solver.prefix.numbers[place];
        search.set(place, search.solver.values[number] == Value::On);
    }
    let mut position = Position { length: start, satisfied: 0, marks: 0 };
    search.satisfied(&mut position);
    let outcome = search.branch(position);
    let (learned, cubes) = (search.decoded(&search.learned), search.decoded(&search.cubes));
    (solver.learned, solver.cubes) = (learned, cubes);
    match outcome {
        Outcome::Decided(polarity, _) => Some(polarity),
        Outcome::Mixed => None,
    }
}

impl Search<'_> {
    fn of(solver: &mut Solver) -> Search<'_> {
        let prefix = &solver.prefix;
        let mut quantifiers = [Quantifier::Free; PLACES];
        for place in 1..=prefix.count {
            quantifiers[place] = prefix.quantifiers[prefix.numbers[place]];
        }
        let code = |&literal: &i16| {
            let place = prefix.places[literal.unsigned_abs() as usize];
            (place * 2) as u8 + (literal > 0) as u8
        };
        let coded = |literals: &[i16]| {
            let mut entry = Entry::EMPTY;
            literals.iter().map(code).for_each(|code| entry.push(code));
            entry
        };
        let clauses: Vec<Entry> = solver.clauses.iter().map(|clause| coded(clause)).collect();
        let mut learned = Entries::new();
        solver.learned.iter().for_each(|entry| learned.push(&coded(entry)));
        let mut cubes = Entries::new();
        solver.cubes.iter().for_each(|entry| cubes.push(&coded(entry)));
        let mut search = Search {
            solver,
            quantifiers,
            reduced: clauses.clone(),
            clauses,
            dying: vec![vec![]; CODES],
            learned,
            cubes,
            statuses: [OPEN; 256],
        };
        for index in 0..search.reduced.len() {
            let mut entry = search.reduced[index];
            search.reduce(&mut entry, Polarity::Clause);
            search.dying[entry.last_code()].push(index as u8);
            search.reduced[index] = entry;
        }
        search
    }

    fn decoded(&self, entries: &Entries) -> VecDeque<search::Entry> {
        let literal = |&code: &u8| {
            let number = self.solver.prefix.numbers[place(code)] as i16;
            if code % 2 == 1 {
                number
            } else {
                -number
            }
        };
        let row = |entry: &Entry| {
            search::Entry::of(&entry.codes().iter().map(literal).collect::<Vec<_>>())
        };
        entries.oldest_first().map(row).collect()
    }

    fn set(&mut self, place: usize, on: bool) {
        self.statuses[2 * place] = if on { FALSE } else { TRUE };
        self.statuses[2 * place + 1] = if on { TRUE } else { FALSE };
    }

    fn visit(&mut self, mut position: Position) -> Outcome {
        self.solver.visits += 1;
        let lines_above = self.solver.lines.len();
        let outcome = match self.decide(&mut position) {
            Some((polarity, entry)) => Outcome::Decided(polarity, entry),
            None => self.branch(position),
        };
        self.line_if_yes(&outcome, position.length, lines_above);
        outcome
    }

    fn line_if_yes(&mut self, outcome: &Outcome, length: usize, above: usize) {
        if length <= self.solver.prefix.free_count
            && matches!(outcome, Outcome::Decided(Polarity::Cube, _))
        {
            self.solver.lines.truncate(above);
            let mut line = [0; 40];
            for (byte, place) in line.iter_mut().zip(1..=length) {
                *byte = self.statuses[2 * place + 1];
            }
            self.solver.lines.push(line);
        }
    }

    fn decide(&self, position: &mut Position) -> Option<(Polarity, Entry)> {
        let length = position.length;
        let t = (self.statuses[2 * length + 1] == TRUE) as usize;
        let (lost, held) = (2 * length + 1 - t, 2 * length + t);
        for &index in &self.dying[lost] {
            let clause = &self.reduced[index as usize];
            if all_are(clause.codes(), &self.statuses, FALSE) {
                return Some((Polarity::Clause, *clause));
            }
        }
        if let Some(entry) = self.learned.find(lost, &self.statuses, FALSE) {
            return Some((Polarity::Clause, *entry));
        }
        if let Some(cube) = self.satisfied(position) {
            return Some((Polarity::Cube, cube));
        }
        let entry = self.cubes.find(held, &self.statuses, TRUE)?;
        Some((Polarity::Cube, *entry))
    }

    /// The test goes on with the first clause that was not satisfied above.
    fn satisfied(&self, position: &mut Position) -> Option<Entry> {
        for clause in &self.clauses[position.satisfied..] {
            let is_true = |&&code: &&u8| self.statuses[code as usize] == TRUE;
            let code = clause.codes().iter().find(is_true)?;
            position.marks |= 1 << place(*code);
            position.satisfied += 1;
        }
        let mut cube = Entry::EMPTY;
        let mut marks = position.marks;
        while marks != 0 {
            let place = marks.trailing_zeros() as usize;
            marks &= marks - 1;
            let positive = self.statuses[2 * place + 1] == TRUE;
            cube.push((2 * place) as u8 + positive as u8);
        }
        self.reduce(&mut cube, Polarity::Cube);
        Some(cube)
    }

    fn reduce(&self, entry: &mut Entry, polarity: Polarity) {
        let drops = match polarity {
            Polarity::Clause => Quantifier::Forall,
            Polarity::Cube => Quantifier::Exists,
        };
        while entry.codes().last().is_some_and(|&code| self.quantifiers[place(code)] == drops) {
            entry.length -= 1;
        }
    }

    fn side(&mut self, on: bool, above: Position) -> Outcome {
        let place = above.length + 1;
        self.set(place, on);
        let outcome = self.visit(Position { length: place, ..above });
        self.statuses[2 * place] = OPEN;
        self.statuses[2 * place + 1] = OPEN;
        outcome
    }

    fn branch(&mut self, position: Position) -> Outcome {
        let place = position.length + 1;
        let decides = match self.quantifiers[place] {
            Quantifier::Exists => Some(Polarity::Cube),
            Quantifier::Forall => Some(Polarity::Clause),
            Quantifier::Free => None,
        };
        let off = self.side(false, position);
        if let Outcome::Decided(polarity, entry) = &off {
            if Some(*polarity) == decides || entry.last_place() != place {
                return off;
            }
        }
        let on = self.side(true, position);
        match (off, on) {
            (_, Outcome::Decided(polarity, entry)) if Some(polarity) == decides => {
                Outcome::Decided(polarity, entry)
            }
            (Outcome::Decided(first, off), Outcome::Decided(second, on)) if first == second => {
                match on.last_place() == place {
                    true => self.join(first, &off, &on),
                    false => Outcome::Decided(second, on),
                }
            }
            _ => Outcome::Mixed,
        }
    }

    /// Both end in the variable that is resolved.
    fn join(&mut self, polarity: Polarity, off: &Entry, on: &Entry) -> Outcome {
        let (off, on) = (&off.codes()[..off.length - 1], &on.codes()[..on.length - 1]);
        let mut joined = Entry::EMPTY;
        let (mut i, mut j) = (0, 0);
        while i < off.len() && j < on.len() {
            let (a, b) = (off[i], on[j]);
            joined.push(a.min(b));
            i += (a <= b) as usize;
            j += (b <= a) as usize;
        }
        off[i..].iter().chain(&on[j..]).for_each(|&code| joined.push(code));
        self.reduce(&mut joined, polarity);
        match polarity {
            Polarity::Clause => {
                self.solver.record();
                self.learned.push(&joined);
            }
            Polarity::Cube => self.cubes.push(&joined),
        }
        Outcome::Decided(polarity, joined)
    }
}

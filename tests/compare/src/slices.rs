//! A state in two slices, the cells of 16 bits and the literals, part behind part: the library's format for books with
//! their own limits. The first two cells are the limits; "a state with higher ones is 22", and so is one whose slices
//! are shorter than its limits ask. What lies behind the last part is neither read nor written.

use crate::answer::{Answer, Call, Said, Subject};
use crate::check;
use crate::formula::{Formula, Literal, Place, Quantifier, Variable};
use crate::limits::LimitSlip;
use crate::options::{Limits, Options};
use crate::solver::{Solver, State};
use crate::store::Store;
use crate::text::{self, TextRefusal};

#[derive(Clone, Debug, PartialEq, Eq)]
pub struct Slices {
    pub cells: Vec<u16>,
    pub literals: Vec<i16>,
    pub slip: Option<LimitSlip>,
}

/// Where the parts of the cells begin, and how many there are.
#[derive(Clone, Copy, Debug, PartialEq, Eq)]
pub struct Cells {
    /// The count of variables, then the number of each place's variable.
    pub numbers: usize,
    /// The level of each place, from the part's cell 1 on.
    pub levels: usize,
    /// The quantifier of each level, from the part's cell 0 on.
    pub kinds: usize,
    /// The count of clauses, then the length of each.
    pub clause_sizes: usize,
    /// The count of learned clauses, the length of each, then the record of each.
    pub learned_clause_sizes: usize,
    pub learned_cube_sizes: usize,
    pub count: usize,
}

/// Where the parts of the literals begin, and how many there are. Clauses come first.
#[derive(Clone, Copy, Debug, PartialEq, Eq)]
pub struct Rows {
    pub learned_clauses: usize,
    pub learned_cubes: usize,
    pub count: usize,
    /// The cells of a stored entry: "its limit for the literals of a stored entry is that for numbers".
    pub entry: usize,
}

impl Cells {
    pub fn of(limits: &Limits) -> Cells {
        let by_number = 1 + limits.numbers as u16 as usize;
        let numbers = 2;
        let levels = numbers + by_number;
        let kinds = levels + by_number;
        let clause_sizes = kinds + by_number;
        let learned_clause_sizes = clause_sizes + 1 + limits.clauses;
        let learned_cube_sizes = learned_clause_sizes + 1 + 2 * limits.entries;
        let count = learned_cube_sizes + 1 + limits.entries;
        Cells {
            numbers,
            levels,
            kinds,
            clause_sizes,
            learned_clause_sizes,
            learned_cube_sizes,
            count,
        }
    }
}

impl Rows {
    pub fn of(limits: &Limits, slip: Option<LimitSlip>) -> Rows {
        let entry = match slip {
            Some(LimitSlip::EntriesAsWideAsThePaper) => Limits::PAPER.numbers,
            Some(LimitSlip::EntriesAsWideAsTheCap) => Limits::HIGHEST.numbers,
            _ => limits.numbers,
        } as u16 as usize;
        let learned_clauses = limits.clauses * limits.literals;
        let learned_cubes = learned_clauses + limits.entries * entry;
        Rows {
            learned_clauses,
            learned_cubes,
            count: learned_cubes + limits.entries * entry,
            entry,
        }
    }
}

const CODES: [Quantifier; 3] = [Quantifier::Free, Quantifier::Exists, Quantifier::Forall];

/// Rows with their sizes: a count, then the length of each.
fn read_rows(sizes: &[u16], most: usize, cells: &[i16], width: usize) -> Option<Vec<Vec<Literal>>> {
    let count = usize::from(sizes[0]);
    if count > most {
        return None;
    }
    let row = |index: usize| {
        let size = usize::from(sizes[1 + index]);
        (size <= width).then(|| cells[index * width..][..size].to_vec())
    };
    (0..count).map(row).collect()
}

fn write_rows(rows: &[Vec<Literal>], sizes: &mut [u16], cells: &mut [i16], width: usize) {
    sizes[0] = rows.len() as u16;
    for (index, row) in rows.iter().enumerate() {
        sizes[1 + index] = row.len() as u16;
        cells[index * width..][..row.len()].copy_from_slice(row);
    }
}

impl Slices {
    /// Just as long as the limits ask, filled with what `cell` gives, and a state written to it.
    pub fn written(state: &State, limits: &Limits, mut cell: impl FnMut() -> u16) -> Slices {
        let (cells, rows) = (Cells::of(limits), Rows::of(limits, None));
        let mut slices = Slices {
            cells: (0..cells.count).map(|_| cell()).collect(),
            literals: (0..rows.count).map(|_| cell() as i16).collect(),
            slip: None,
        };
        slices.cells[0] = limits.numbers as u16;
        slices.cells[1] = limits.clauses as u16;
        slices.write(state);
        slices
    }

    /// The limits of the first two cells; none where these are not there.
    pub fn limits(&self) -> Option<Limits> {
        let [numbers, clauses, ..] = self.cells[..] else { return None };
        Some(Limits { numbers: numbers as i16, clauses: usize::from(clauses), ..Limits::HIGHEST })
    }

    /// Whether both slices are as long as the limits ask.
    fn is_whole(&self, limits: &Limits) -> bool {
        use LimitSlip::{LongTablesRefused, ShortCellsTaken, ShortLiteralsTaken};
        let cells = self.cells.len().checked_sub(Cells::of(limits).count);
        let literals = self.literals.len().checked_sub(Rows::of(limits, self.slip).count);
        let long = self.slip == Some(LongTablesRefused) && (cells > Some(0) || literals > Some(0));
        (cells.is_some() || self.slip == Some(ShortCellsTaken))
            && (literals.is_some() || self.slip == Some(ShortLiteralsTaken))
            && !long
    }

    /// What the slices hold, as their counts say. None: a slice is too short, or a count, a length, a level or a
    /// quantifier's code is out of range.
    pub fn read(&self) -> Option<State> {
        let limits = self.limits()?;
        let high = limits.too_high() || limits.numbers < 0;
        if high && self.slip != Some(LimitSlip::LimitsNotJudged) || !self.is_whole(&limits) {
            return None;
        }
        let (at, rows) = (Cells::of(&limits), Rows::of(&limits, self.slip));
        // Only a slip reads cells that are not there.
        let mut cells = self.cells.clone();
        cells.resize(cells.len().max(at.count), 0);
        let mut literals = self.literals.clone();
        literals.resize(literals.len().max(rows.count), 0);
        let formula = prefix(&cells, &at)?;
        let clauses =
            read_rows(&cells[at.clause_sizes..], limits.clauses, &literals, limits.literals);
        let formula = Formula { clauses: clauses?, ..formula };
        let entries = |sizes: usize, first: usize| {
            read_rows(&cells[sizes..], limits.entries, &literals[first..], rows.entry)
        };
        let clauses = entries(at.learned_clause_sizes, rows.learned_clauses)?;
        let cubes = entries(at.learned_cube_sizes, rows.learned_cubes)?;
        let records = &cells[at.learned_clause_sizes + 1 + limits.entries..][..clauses.len()];
        let records = records.iter().map(|&record| usize::from(record)).collect();
        Some(State { formula, store: Store { clauses, records, cubes } })
    }

    /// The cells that a state's counts tell; all others stay.
    pub fn write(&mut self, state: &State) {
        let limits = self.limits().expect("a state that is read has its limits");
        let (at, rows) = (Cells::of(&limits), Rows::of(&limits, self.slip));
        self.cells.resize(self.cells.len().max(at.count), 0);
        self.literals.resize(self.literals.len().max(rows.count), 0);
        let State { formula, store } = state;
        self.cells[at.numbers] = formula.prefix.len() as u16;
        for (index, variable) in formula.prefix.iter().enumerate() {
            let level = formula.level(Place(index + 1)).0;
            self.cells[at.numbers + index + 1] = variable.number as u16;
            self.cells[at.levels + index + 1] = level as u16;
            let code = CODES.iter().position(|kind| *kind == variable.quantifier);
            self.cells[at.kinds + level] = code.expect("one of three") as u16;
        }
        let (cells, literals) = (&mut self.cells, &mut self.literals);
        let sizes = &mut cells[at.clause_sizes..];
        write_rows(&formula.clauses, sizes, literals, limits.literals);
        let sizes = &mut cells[at.learned_clause_sizes..];
        write_rows(&store.clauses, sizes, &mut literals[rows.learned_clauses..], rows.entry);
        for (cell, &record) in sizes[1 + limits.entries..].iter_mut().zip(&store.records) {
            *cell = record as u16;
        }
        let sizes = &mut cells[at.learned_cube_sizes..];
        write_rows(&store.cubes, sizes, &mut literals[rows.learned_cubes..], rows.entry);
    }

    fn options(&self, limits: Limits) -> Options {
        Options { of_limits: self.slip, ..Options::with(limits) }
    }

    /// The state, where no call refuses it with 22.
    pub fn read_well_formed(&self) -> Option<State> {
        let options = self.options(self.limits()?);
        self.read().filter(|state| !check::malformed(state, &options))
    }
}

/// A text opened onto slices of these lengths: the state that they hold then, or the refusal. "A table of the state
/// shorter than the limits ask is 22", here at line 0 before the text is read; a refused text leaves no state.
pub fn open(
    text: &[u8],
    (numbers, rules): (usize, usize),
    (cells, literals): (usize, usize),
    slip: Option<LimitSlip>,
) -> Result<State, TextRefusal> {
    let limits = Limits::own(numbers, rules);
    let short = Slices { cells: vec![0; cells], literals: vec![0; literals], slip };
    if !short.is_whole(&limits) {
        return Err(TextRefusal { number: 22, line: 0 });
    }
    let options = Options { of_limits: slip, ..Options::with(limits) };
    let formula = text::open(text, &options)?;
    Ok(State { formula, store: Store::default() })
}

/// The declarations; each level is that of its place.
fn prefix(cells: &[u16], at: &Cells) -> Option<Formula> {
    let count = usize::from(cells[at.numbers]);
    if at.numbers + count >= at.levels {
        return None;
    }
    let level = |place: usize| usize::from(cells[at.levels + place]);
    let mut formula = Formula::default();
    for place in 1..=count {
        if at.kinds + level(place) >= at.clause_sizes {
            return None;
        }
        let quantifier = *CODES.get(usize::from(cells[at.kinds + level(place)]))?;
        let number = i16::try_from(cells[at.numbers + place]).ok()?;
        formula.prefix.push(Variable { number, quantifier });
    }
    let of_its_place = |place| formula.level(Place(place)).0 == level(place);
    (1..=count).all(of_its_place).then_some(formula)
}

impl Subject for Slices {
    /// "22 the state is malformed" before all else, with "the state as given, and zeroes the card table"; a call that
    /// is refused leaves the state as it is, but for what a search stored.
    fn call_within(&mut self, call: &Call, ceiling: u32) -> Answer {
        let Some(state) = self.read_well_formed() else {
            return Answer { said: Said::Refused(22), table: vec![0; call.table()], visits: 0 };
        };
        let options = self.options(self.limits().expect("a state that is read has its limits"));
        let mut solver = Solver::new(state.clone(), options);
        let answer = solver.call_within(call, ceiling);
        if solver.state != state {
            self.write(&solver.state);
        }
        answer
    }
}

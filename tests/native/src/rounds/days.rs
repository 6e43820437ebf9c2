//! Calls at the places of a day: eight books in two long slices, one total, and totals around what they need; places without a
//! book, malformed books, accounts that no calls reach.

use super::{kind, numbers, Counts};
use crate::spoil::{self, FAULTS};
use compare::answer::LENT_BYTE;
use compare::day::{Accounts, Day, DaySlip, PLACES};
use compare::draw::days;
use compare::draw::states::{opening, Opening};
use compare::random::Random;
use compare::slices::{self, Slices};
use compare::{Answer, Call, Limits, Options, Said, Solver, State, Store};

/// The tables of a day: those of its places one behind another.
#[derive(Clone, Debug, PartialEq, Eq)]
pub struct Tables {
    pub total: u32,
    pub used: [u32; PLACES],
    /// Which places have a book: 0 for none.
    pub books: [u8; PLACES],
    /// How many cells and literals each place has.
    pub rooms: [(usize, usize); PLACES],
    pub cells: Vec<u16>,
    pub literals: Vec<i16>,
}

impl Tables {
    fn of(drawn: &Drawn) -> Tables {
        let mut tables = Tables {
            total: drawn.accounts.total,
            used: drawn.accounts.used,
            books: [0; PLACES],
            rooms: [(0, 0); PLACES],
            cells: vec![],
            literals: vec![],
        };
        for (index, (has_book, slices)) in drawn.places.iter().enumerate() {
            tables.books[index] = u8::from(*has_book) * 255_u8.wrapping_shr(index as u32).max(1);
            tables.rooms[index] = (slices.cells.len(), slices.literals.len());
            tables.cells.extend(&slices.cells);
            tables.literals.extend(&slices.literals);
        }
        tables
    }

    fn accounts(&self) -> Accounts {
        Accounts { total: self.total, used: self.used }
    }

    /// What stands at a place.
    fn slices(&self, index: usize) -> Slices {
        let before = |of: fn(&(usize, usize)) -> usize| self.rooms[..index].iter().map(of).sum();
        let (at, row): (usize, usize) = (before(|room| room.0), before(|room| room.1));
        let (m, n) = self.rooms[index];
        let (cells, literals) = (&self.cells[at..at + m], &self.literals[row..row + n]);
        Slices { cells: cells.to_vec(), literals: literals.to_vec(), slip: None }
    }

    fn write(&mut self, index: usize, slices: &Slices) {
        let before = |of: fn(&(usize, usize)) -> usize| self.rooms[..index].iter().map(of).sum();
        let (at, row): (usize, usize) = (before(|room| room.0), before(|room| room.1));
        self.cells[at..at + slices.cells.len()].copy_from_slice(&slices.cells);
        self.literals[row..row + slices.literals.len()].copy_from_slice(&slices.literals);
    }
}

/// What a compared library has to offer; an error where something is written that is only read, or a number is no answer.
pub trait AtPlaces {
    /// A day starts: no book, nothing used.
    fn begin(&mut self, tables: &mut Tables, total: u32) -> Result<(), String>;

    /// A text opened at a place: its refusal, 0 for none, and its line.
    fn open(
        &mut self,
        tables: &mut Tables,
        place: usize,
        text: &[u8],
        limits: (usize, usize),
    ) -> Result<(u16, usize), String>;

    /// What a call at a place may still use, or a refusal.
    fn share(&mut self, tables: &Tables, place: usize) -> Result<(u16, u32), String>;

    fn call(
        &mut self,
        tables: &mut Tables,
        place: usize,
        call: &Call,
        ceiling: u32,
        table: &mut [u8],
    ) -> Result<(Said, u64), String>;
}

/// The independent implementation itself, to show that the comparison can succeed and fail.
impl AtPlaces for Option<DaySlip> {
    fn begin(&mut self, tables: &mut Tables, total: u32) -> Result<(), String> {
        (tables.total, tables.used, tables.books) = (total, [0; PLACES], [0; PLACES]);
        Ok(())
    }

    fn open(
        &mut self,
        tables: &mut Tables,
        place: usize,
        text: &[u8],
        limits: (usize, usize),
    ) -> Result<(u16, usize), String> {
        let Some(index) = index(place) else { return Ok((38, 0)) };
        let mut slices = tables.slices(index);
        let told = match slices::open(text, limits, tables.rooms[index], None) {
            Ok(state) => {
                let own = Limits::own(limits.0, limits.1);
                slices.cells[0] = own.numbers as u16;
                slices.cells[1] = own.clauses as u16;
                slices.write(&state);
                (0, 0)
            }
            Err(refused) => {
                slices.cells.iter_mut().for_each(|cell| *cell = u16::MAX);
                (refused.number.into(), refused.line)
            }
        };
        tables.books[index] = u8::from(told.0 == 0);
        tables.write(index, &slices);
        Ok(told)
    }

    fn share(&mut self, tables: &Tables, place: usize) -> Result<(u16, u32), String> {
        Ok(share(&tables.accounts(), place))
    }

    fn call(
        &mut self,
        tables: &mut Tables,
        place: usize,
        call: &Call,
        ceiling: u32,
        table: &mut [u8],
    ) -> Result<(Said, u64), String> {
        let mut day = Day { accounts: tables.accounts(), slip: *self, ..Day::new(0) };
        for index in 0..PLACES {
            let has_book = tables.books[index] != 0;
            day.books[index] = has_book.then(|| book(&tables.slices(index)));
        }
        let answer = day.call(place, call, ceiling);
        tables.used = day.accounts.used;
        if let (Some(index), true) = (day.place(place), answer.said != Said::Refused(22)) {
            let mut slices = tables.slices(index);
            slices.write(&day.books[index].as_ref().expect("a place with a book").state);
            tables.write(index, &slices);
        }
        table.copy_from_slice(&answer.table);
        Ok((answer.said, answer.visits))
    }
}

fn index(place: usize) -> Option<usize> {
    place.checked_sub(1).filter(|index| *index < PLACES)
}

/// "Each place, with a book or not, has a floor": a share is told of any of them.
fn share(accounts: &Accounts, place: usize) -> (u16, u32) {
    match index(place) {
        None => (38, 0),
        Some(_) if accounts.malformed(None) => (22, 0),
        Some(index) => (0, accounts.left(index, None)),
    }
}

/// A day as it is given, and calls at places, from 1.
#[derive(Clone, Debug)]
pub struct Drawn {
    accounts: Accounts,
    /// Whether the place has a book, and its tables.
    places: Vec<(bool, Slices)>,
    pub calls: Vec<(usize, Call, u32)>,
}

pub fn drawn(seed: u64, index: u64) -> Drawn {
    let random = &mut numbers(seed, 7, index);
    let day = days::draw(random);
    let mut accounts = Accounts::new(day.total);
    let place = |book: &Option<_>, random: &mut Random| match book {
        Some((formula, limits)) => {
            let state = State { formula: Clone::clone(formula), store: Store::default() };
            let mut cells = Random::new(random.below(1 << 40) as u64);
            (true, Slices::written(&state, limits, || spoil::any_number(&mut cells) as u16))
        }
        // What stands at a place without a book means nothing.
        None => {
            let cells = vec![1; random.below(700)];
            (false, Slices { cells, literals: vec![1; random.below(900)], slip: None })
        }
    };
    let mut places: Vec<_> = day.books.iter().map(|book| place(book, random)).collect();
    if random.one_in(4) {
        let (has_book, slices) = &mut places[random.below(PLACES)];
        if *has_book {
            spoil::spoil(slices, random.pick(&FAULTS), random);
        }
    }
    if random.one_in(4) {
        let floor = day.total / PLACES as u32;
        let others = [random.below(300) as u32, floor, floor.saturating_add(1), u32::MAX];
        accounts.used[random.below(PLACES)] = random.pick(&others);
    }
    if random.one_in(20) {
        accounts.used = [u32::MAX; PLACES];
    }
    Drawn { accounts, places, calls: day.calls }
}

/// A book of the other side; one whose tables do not read is malformed in another way.
fn book(slices: &Slices) -> Solver {
    match slices.read().zip(slices.limits()) {
        Some((state, limits)) => Solver::new(state, Options::with(limits)),
        None => {
            let store = Store { cubes: vec![vec![0]], ..Store::default() };
            Solver::new(State { store, ..State::default() }, Options::paper())
        }
    }
}

impl Drawn {
    fn day(&self, slip: Option<DaySlip>) -> Day {
        let mut day = Day { accounts: self.accounts.clone(), slip, ..Day::new(0) };
        for (at, (has_book, slices)) in day.books.iter_mut().zip(&self.places) {
            *at = has_book.then(|| book(slices));
        }
        day
    }

    /// Every call on both sides, with a slip of the other one.
    pub fn held(
        &self,
        subject: &mut impl AtPlaces,
        slip: Option<DaySlip>,
        counts: &mut Counts,
    ) -> Result<(), String> {
        let (mut tables, mut day) = (Tables::of(self), self.day(slip));
        for (place, call, ceiling) in &self.calls {
            let words = |what: String| format!("at {place}, {call}, ceiling {ceiling}: {what}");
            let answer = hold(subject, &mut tables, &mut day, *place, call, *ceiling);
            let answer = answer.map_err(words)?;
            let refusal = if let Said::Refused(number) = answer.said { number.into() } else { 0 };
            counts.call(at_a_place(call), refusal);
            counts.visits += answer.visits;
            for place in [*place, 0, 1, 8, 9] {
                let (found, wanted) = (subject.share(&tables, place)?, share(&day.accounts, place));
                if slip.is_none() && found != wanted {
                    return Err(words(format!("share at {place}: {found:?}, not {wanted:?}")));
                }
                counts.call("share", found.0);
            }
        }
        Ok(())
    }
}

fn at_a_place(call: &Call) -> &'static str {
    match kind(call) {
        "rule" => "rule at a place",
        "one" => "one at a place",
        "withdraw" => "withdraw at a place",
        "forget" => "forget at a place",
        "query" => "query at a place",
        "card" => "card at a place",
        "keep card" => "keep card at a place",
        "closest" => "closest at a place",
        _ => "write at a place",
    }
}

/// A call on both sides: the answer, the accounts, and every cell of every place.
fn hold(
    subject: &mut impl AtPlaces,
    tables: &mut Tables,
    day: &mut Day,
    place: usize,
    call: &Call,
    ceiling: u32,
) -> Result<Answer, String> {
    let mut expected = tables.clone();
    let mut table = vec![LENT_BYTE; call.table()];
    let (said, visits) = subject.call(tables, place, call, ceiling, &mut table)?;
    let (found, wanted) = (Answer { said, visits, table }, day.call(place, call, ceiling));
    if found != wanted {
        let visits = (found.visits, wanted.visits);
        return Err(format!("{found}, not {wanted}, visits {visits:?}"));
    }
    expected.used = day.accounts.used;
    let kept = matches!(said, Said::Refused(_)) && visits == 0;
    if let (Some(index), false) = (day.place(place), kept) {
        let mut slices = expected.slices(index);
        slices.write(&day.books[index].as_ref().expect("a place with a book").state);
        expected.write(index, &slices);
    }
    match *tables == expected {
        true => Ok(wanted),
        false if tables.used != expected.used => {
            Err(format!("used {:?}, not {:?}", tables.used, expected.used))
        }
        false => Err("a cell of some place is not as it should be".into()),
    }
}

/// A day that begins, and texts opened at its places, one at times again; slices that are too short among them.
pub fn openings(
    subject: &mut impl AtPlaces,
    seed: u64,
    index: u64,
    counts: &mut Counts,
) -> Result<(), String> {
    counts.input("days opened");
    let random = &mut numbers(!seed, 7, index);
    let drawn: Vec<Opening> = (0..PLACES).map(|_| opening(random)).collect();
    let place = |drawn: &Opening| {
        let (m, n) = drawn.lengths;
        (true, Slices { cells: vec![3; m], literals: vec![3; n], slip: None })
    };
    let places = drawn.iter().map(place).collect();
    let accounts = Accounts { total: 7, used: [u32::MAX; PLACES] };
    let mut tables = Tables::of(&Drawn { accounts, places, calls: vec![] });
    let total = random.pick(&[0, 7, 8, 90, u32::MAX]);
    let mut expected = tables.clone();
    subject.begin(&mut tables, total)?;
    None.begin(&mut expected, total)?;
    if tables != expected {
        return Err(format!("days opened {index} of seed {seed}: another beginning"));
    }
    for _ in 0..random.between(1, 9) {
        let at = random.between(0, PLACES + 1);
        let Opening { text, limits, .. } = &drawn[at.saturating_sub(1).min(PLACES - 1)];
        opened(subject, &mut tables, at, text, *limits, counts)
            .map_err(|error| format!("days opened {index} of seed {seed}, at {at}: {error}"))?;
    }
    Ok(())
}

/// A text at a place: its refusal, the book that stands there then, and no cell of another place.
fn opened(
    subject: &mut impl AtPlaces,
    tables: &mut Tables,
    place: usize,
    text: &[u8],
    limits: (usize, usize),
    counts: &mut Counts,
) -> Result<(), String> {
    let mut expected = tables.clone();
    let found = subject.open(tables, place, text, limits)?;
    let wanted = None.open(&mut expected, place, text, limits)?;
    counts.call("open at a place", found.0);
    if found != wanted {
        return Err(format!("{found:?}, not {wanted:?}"));
    }
    if let Some(index) = index(place) {
        let (book, other) = (tables.slices(index), expected.slices(index));
        if book.read_well_formed() != other.read_well_formed() {
            return Err("another book".into());
        }
        if (tables.books[index] == 0) != (expected.books[index] == 0) {
            return Err("another byte that tells the book".into());
        }
        expected.books[index] = tables.books[index];
        expected.write(index, &book);
    }
    (*tables == expected).then_some(()).ok_or("a cell of another place is written".into())
}

pub fn round(
    subject: &mut impl AtPlaces,
    seed: u64,
    index: u64,
    counts: &mut Counts,
) -> Result<(), String> {
    counts.input("days");
    let mut drawn = drawn(seed, index);
    let Err(first) = drawn.held(subject, None, counts) else { return Ok(()) };
    for at in (0..drawn.calls.len()).rev() {
        let call = drawn.calls.remove(at);
        if drawn.held(subject, None, &mut Counts::default()).is_ok() {
            drawn.calls.insert(at, call);
        }
    }
    let states: Vec<_> = drawn.places.iter().map(|(has, at)| has.then(|| at.read())).collect();
    let (accounts, calls) = (&drawn.accounts, &drawn.calls);
    Err(format!("days {index} of seed {seed}: {first}\n{accounts:?}\n{states:?}\n{calls:?}"))
}

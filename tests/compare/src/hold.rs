//! The comparison of calls that take a state in two lent slices: `InPlace` is what the compared library has to offer.
//! Slices and table are lent between guards; after each call the answer, the table, the guards and the state are held to
//! be those of this implementation.

use crate::answer::{Answer, Call, Said, Subject, LENT_BYTE};
use crate::options::Limits;
use crate::reading::Reading;
use crate::slices::{Cells, Rows, Slices};
use std::ops::Range;

/// Calls on a state in two slices.
pub trait InPlace {
    /// The answer but for its table, and the visits; an error where its numbers are no answer, or something is written
    /// beside the slices and the table that is only read.
    fn call(
        &mut self,
        cells: &mut [u16],
        literals: &mut [i16],
        call: &Call,
        ceiling: u32,
        table: &mut [u8],
    ) -> Result<(Said, u64), String>;
}

/// This implementation itself, to show that the comparison can succeed and fail.
impl InPlace for Option<crate::limits::LimitSlip> {
    fn call(
        &mut self,
        cells: &mut [u16],
        literals: &mut [i16],
        call: &Call,
        ceiling: u32,
        table: &mut [u8],
    ) -> Result<(Said, u64), String> {
        let mut slices = Slices { cells: cells.to_vec(), literals: literals.to_vec(), slip: *self };
        let answer = slices.call_within(call, ceiling);
        // Only a slip makes them longer.
        cells.copy_from_slice(&slices.cells[..cells.len()]);
        literals.copy_from_slice(&slices.literals[..literals.len()]);
        table.copy_from_slice(&answer.table);
        Ok((answer.said, answer.visits))
    }
}

/// An odd number, so that slices stand at addresses that no wider number may have.
const GUARDS: usize = 47;

/// Something between guards.
struct Guarded<T> {
    all: Vec<T>,
    guard: T,
}

impl<T: Copy + PartialEq> Guarded<T> {
    fn new(inner: &[T], guard: T) -> Guarded<T> {
        let guards = [guard; GUARDS];
        Guarded { all: [&guards[..], inner, &guards[..]].concat(), guard }
    }

    fn inner(&mut self) -> &mut [T] {
        let end = self.all.len() - GUARDS;
        &mut self.all[GUARDS..end]
    }

    fn is_kept(&self) -> bool {
        let (before, rest) = self.all.split_at(GUARDS);
        let after = &rest[rest.len() - GUARDS..];
        before.iter().chain(after).all(|cell| *cell == self.guard)
    }
}

/// The cells and the literals that an answered call may write, by their indices.
fn writes(call: &Call, slices: &Slices, limits: &Limits) -> (Range<usize>, Range<usize>) {
    let (at, rows) = (Cells::of(limits), Rows::of(limits, slices.slip));
    let of_a_walk = |reading: &Reading| {
        let state = slices.read_well_formed();
        state.is_some_and(|state| !reading.is_full(&state.formula))
    };
    match call {
        // "It neither reads nor adds to the store".
        Call::Query(reading) if of_a_walk(reading) => (0..0, 0..0),
        Call::Write(_) => (0..0, 0..0),
        Call::Rule(_) | Call::One(_) => (at.clause_sizes..at.count, 0..rows.learned_clauses),
        Call::Withdraw => {
            (at.clause_sizes..at.learned_cube_sizes, rows.learned_clauses..rows.learned_cubes)
        }
        Call::Forget => (at.learned_clause_sizes..at.count, 0..0),
        Call::Query(_) | Call::Card(_) | Call::KeepCard(_) | Call::Closest(..) => {
            (at.learned_clause_sizes..at.count, rows.learned_clauses..rows.count)
        }
    }
}

fn outside<'a, T>(cells: &'a [T], range: &Range<usize>) -> (&'a [T], &'a [T]) {
    (&cells[..range.start], &cells[range.end..])
}

/// A call of the compared side on slices and a table between guards; `slices` goes on as it left them. An error where it
/// writes a guard or a cell that the call only reads: any cell after a refusal without a visit.
pub fn lend(
    subject: &mut impl InPlace,
    slices: &mut Slices,
    call: &Call,
    ceiling: u32,
) -> Result<Answer, String> {
    let mut cells = Guarded::new(&slices.cells, 0x5C5C);
    let mut literals = Guarded::new(&slices.literals, 0x5C5C);
    let mut table = Guarded::new(&vec![LENT_BYTE; call.table()], 0x5C);
    let words = |what: &str| Err(format!("{call}, ceiling {ceiling}: {what}"));
    let told = subject.call(cells.inner(), literals.inner(), call, ceiling, table.inner());
    let (said, visits) = match told {
        Ok(told) => told,
        Err(error) => return words(&error),
    };
    if !cells.is_kept() || !literals.is_kept() || !table.is_kept() {
        return words("a guard is written");
    }
    let writes = match matches!(said, Said::Refused(_)) && visits == 0 {
        true => (0..0, 0..0),
        false => match slices.limits().filter(|_| slices.read().is_some()) {
            Some(limits) => writes(call, slices, &limits),
            None => return words("a malformed state is answered"),
        },
    };
    let same = outside(cells.inner(), &writes.0) == outside(&slices.cells, &writes.0)
        && outside(literals.inner(), &writes.1) == outside(&slices.literals, &writes.1);
    if !same {
        return words("a cell is written that the call only reads");
    }
    slices.cells.copy_from_slice(cells.inner());
    slices.literals.copy_from_slice(literals.inner());
    Ok(Answer { said, visits, table: table.inner().to_vec() })
}

/// A call on both sides; `slices` goes on as the compared side left it. The states are the same cell for cell: outside the
/// counts nothing is written.
pub fn hold(
    subject: &mut impl InPlace,
    slices: &mut Slices,
    call: &Call,
    ceiling: u32,
) -> Result<Answer, String> {
    let mut other = slices.clone();
    let expected = other.call_within(call, ceiling);
    let found = lend(subject, slices, call, ceiling)?;
    let words = |what: &str| Err(format!("{call}, ceiling {ceiling}: {what}"));
    if found != expected {
        let (visits, wanted) = (found.visits, expected.visits);
        return words(&format!("{found}, {visits} visits; not {expected}, {wanted}"));
    }
    if slices.read_well_formed() != other.read_well_formed() {
        return words("the states differ");
    }
    if (&slices.cells, &slices.literals) != (&other.cells, &other.literals) {
        return words("a cell outside the counts is written");
    }
    Ok(expected)
}

//! Texts of books: what they open, and what the program `card` prints for them.

use super::{editions, limits_near, numbers, shown, smallest_text, Counts};
use crate::budget::{self, Walk};
use crate::exports::Exports;
use crate::generate::{Book, SHAPES};
use crate::text::{self as library, room, Opened, Page, Room};
use crate::texts;
use compare::draw::states::{opening, Opening};
use compare::hold;
use compare::limits::LimitSlip;
use compare::slices;
use compare::text::{self, TextRefusal};
use compare::{Call, Formula, Limits, Options, Said, State, Store};
use std::cell::RefCell;

thread_local! {
    static PAGE: RefCell<Page> = RefCell::new(Page::new(room()));
}

/// With a table of the length that answers may need.
pub fn with_page<T>(run: impl FnOnce(&mut Page) -> T) -> T {
    PAGE.with(|page| run(&mut page.borrow_mut()))
}

/// A text of either edition, most with a fault, and limits.
pub fn drawn(seed: u64, index: u64) -> (Vec<u8>, (usize, usize)) {
    let random = &mut numbers(seed, 10, index);
    let shape = SHAPES[index as usize % SHAPES.len()];
    let book = Book::draw(shape, Walk::Plain, random);
    let mut text = match random.below(4) {
        0 => editions::text(&book.formula, true, random),
        1 => editions::text(&book.formula, false, random),
        _ => texts::book(&book.formula, random),
    };
    if !random.one_in(4) {
        texts::spoil(&mut text, random);
    }
    (text, limits_near(&book, random))
}

/// A text on both sides: what is printed, and the state that it opens to. Whether it opens a book; none where its card is not
/// affordable.
pub fn hold_text(input: &[u8], limits: (usize, usize)) -> Result<Option<bool>, String> {
    let own = Limits::own(limits.0, limits.1);
    let (options, lent) = (Options::with(own), Room::under(limits));
    let expected = text::open(input, &options);
    if let Ok(formula) = &expected {
        if !budget::within(formula, &[], Walk::Plain, 20_000) {
            return Ok(None);
        }
    }
    let printed = with_page(|page| page.print(input, &lent))?.ok_or("31 for a whole table")?;
    let wanted = text::card_program(input, &options).into_bytes();
    if printed != wanted {
        return Err(format!("prints {}, not {}", shown(&printed), shown(&wanted)));
    }
    opened(library::open(input, &lent)?, &expected)?;
    Ok(Some(expected.is_ok()))
}

/// What a text opened to is held to be what it is on the other side: the state cell by cell, or a refusal and no book.
pub fn opened(found: Opened, expected: &Result<Formula, TextRefusal>) -> Result<(), String> {
    match expected {
        Ok(formula) => {
            let state = State { formula: formula.clone(), store: Store::default() };
            if (found.refusal, found.line) != (0, 0) {
                return Err(format!("refused {} {}, not opened", found.refusal, found.line));
            }
            match found.slices.read_well_formed() {
                Some(read) if read == state => Ok(()),
                other => Err(format!("opens {other:?}, not {state:?}")),
            }
        }
        Err(refused) => {
            if (found.refusal, found.line) != (refused.number.into(), refused.line) {
                let (number, line) = (found.refusal, found.line);
                return Err(format!("refused {number} {line}, not {refused:?}"));
            }
            no_book(found)
        }
    }
}

/// "22 the state is malformed", for every call.
fn no_book(found: Opened) -> Result<(), String> {
    if found.slices.read_well_formed().is_some() {
        return Err("a refused text opens a book".into());
    }
    let calls = [
        Call::Rule(vec![1]),
        Call::One(vec![1, 2]),
        Call::Withdraw,
        Call::Query(Default::default()),
        Call::Forget,
        Call::Card(3),
        Call::KeepCard(3),
        Call::Closest(Default::default(), 3),
        Call::Write(3),
    ];
    for call in calls {
        let answer = hold::hold(&mut Exports, &mut found.slices.clone(), &call, 9)?;
        if answer.said != Said::Refused(22) {
            return Err(format!("{call} on a refused text: {answer}"));
        }
    }
    Ok(())
}

pub fn round(seed: u64, index: u64, counts: &mut Counts) -> Result<Option<bool>, String> {
    counts.input("texts of books");
    let (text, limits) = drawn(seed, index);
    let held = hold_text(&text, limits).map_err(|error| {
        let smallest = smallest_text(text, |text| hold_text(text, limits).is_err());
        format!("texts {index} of seed {seed}, limits {limits:?}: {error}\n{}", shown(&smallest))
    })?;
    let refusal = text_refusal(seed, index);
    if let Some(books) = held {
        counts.call("print", 0);
        counts.call("open", if books { 0 } else { refusal });
    }
    Ok(held)
}

/// The number by which the other side refuses a drawn text; 0 is none.
fn text_refusal(seed: u64, index: u64) -> u16 {
    let (text, limits) = drawn(seed, index);
    let options = Options::with(Limits::own(limits.0, limits.1));
    text::open(&text, &options).err().map_or(0, |refused| refused.number.into())
}

/// A text under limits that hold its book or do not, opened onto slices that are long enough or too short; with a slip of
/// the other side. Its refusal; 0 is none.
pub fn held_onto_slices(drawn: &Opening, slip: Option<LimitSlip>) -> Result<u16, String> {
    let Opening { text, limits, lengths } = drawn;
    let found = library::open(text, &Room { limits: *limits, lengths: *lengths })?;
    let refusal = found.refusal;
    let expected = slices::open(text, *limits, *lengths, slip).map(|state| state.formula);
    opened(found, &expected)
        .map_err(|error| format!("{error}: {limits:?} {lengths:?} {}", shown(text)))?;
    Ok(refusal)
}

pub fn drawn_onto_slices(seed: u64, index: u64) -> Opening {
    opening(&mut numbers(seed, 11, index))
}

pub fn onto_slices(seed: u64, index: u64, counts: &mut Counts) -> Result<(), String> {
    counts.input("texts onto slices");
    let refusal = held_onto_slices(&drawn_onto_slices(seed, index), None)?;
    counts.call("open", refusal);
    Ok(())
}

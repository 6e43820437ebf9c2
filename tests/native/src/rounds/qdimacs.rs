//! Books that come as QDIMACS.

use super::books::opened;
use super::{limits_near, numbers, shown, smallest_text, Counts};
use crate::budget::Walk;
use crate::generate::{Book, SHAPES};
use crate::text::{open_qdimacs, Room};
use crate::texts::{self, QDIMACS};
use compare::cases::Program;
use compare::draw::inputs;
use compare::limits::LimitSlip;
use compare::qdimacs::{self, QdimacsSlip};
use compare::text::{TextRefusal, LARGEST_TEXT};
use compare::{Formula, Limits, Options};

/// A book as QDIMACS, most with a fault, some near the longest text, and limits.
pub fn drawn(seed: u64, index: u64) -> (Vec<u8>, (usize, usize)) {
    let random = &mut numbers(seed, 12, index);
    if random.one_in(8) {
        // Variables up to the caps, and flags around 40.
        let case = inputs::draw(Program::Qdimacs, random);
        let limits = case.given(None).unwrap_or((40, 255));
        return (case.input, limits);
    }
    let shape = SHAPES[index as usize % SHAPES.len()];
    let book = Book::draw(shape, Walk::Plain, random);
    let mut text = texts::qdimacs(&book.formula, random);
    if !random.one_in(4) {
        QDIMACS.spoil(&mut text, random);
    }
    if random.one_in(6) {
        // Clauses that the header does not count, on the largest books more than there may be.
        text.extend(b"1 0\n".repeat(random.between(1, 12)));
    }
    if random.one_in(200) {
        let length = random.between(LARGEST_TEXT - 1, LARGEST_TEXT + 2);
        let comment = random.pick(&[&b"c\n"[..], b"c", b"c 1 0\n"]);
        while text.len() < length {
            text.extend(comment);
        }
        text.truncate(length - 1);
        text.push(b'\n');
    }
    // Its variables are named by place, so that limits for numbers are near their count.
    let named = Limits { numbers: book.formula.prefix.len() as i16, ..book.limits };
    let limits = match random.one_in(2) {
        true => limits_near(&Book { limits: named, ..book }, random),
        false => limits_near(&book, random),
    };
    (text, limits)
}

pub fn expected(
    text: &[u8],
    limits: (usize, usize),
    Slips { of_text, of_limits }: Slips,
) -> Result<Formula, TextRefusal> {
    let options = Options { of_limits, ..Options::with(Limits::own(limits.0, limits.1)) };
    qdimacs::open(text, &options, of_text)
}

/// Of the other side.
#[derive(Clone, Copy, Debug, Default)]
pub struct Slips {
    pub of_text: Option<QdimacsSlip>,
    pub of_limits: Option<LimitSlip>,
}

/// On both sides.
pub fn held(text: &[u8], limits: (usize, usize), slip: Slips) -> Result<u16, String> {
    let found = open_qdimacs(text, &Room::under(limits))?;
    let refusal = found.refusal;
    opened(found, &expected(text, limits, slip))?;
    Ok(refusal)
}

pub fn round(seed: u64, index: u64, counts: &mut Counts) -> Result<(), String> {
    counts.input("QDIMACS texts");
    let (text, limits) = drawn(seed, index);
    let refusal = held(&text, limits, Slips::default()).map_err(|error| {
        let smallest = smallest_text(text, |text| held(text, limits, Slips::default()).is_err());
        format!("QDIMACS {index} of seed {seed}, limits {limits:?}: {error}\n{}", shown(&smallest))
    })?;
    counts.call("open QDIMACS", refusal);
    Ok(())
}

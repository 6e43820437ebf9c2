//! Lines of sessions, with faults in them, on opened books and on given and malformed states, a page asked for after each.

use super::books::with_page;
use super::{kind, numbers, shown, Counts};
use crate::budget::Walk;
use crate::generate::{Book, Shape};
use crate::hold::Case;
use crate::input::{self, draw, Source};
use crate::text::{self as library, Cards, Room};
use crate::texts;
use compare::last_card::{LastCard, LastCardSlip};
use compare::session::{self, Request, LARGEST_LINE};
use compare::slices::Slices;
use compare::{Answer, Call, Formula, Options, Said, Solver, Subject};

/// A session on both sides: the library's state and cards, and what they are compared with. Where the state does not read
/// there is no solver.
pub struct Both {
    pub slices: Slices,
    cards: Cards,
    pub solver: Option<Solver>,
    last: LastCard,
}

impl Both {
    pub fn new(slices: Slices) -> Both {
        Both::slipped(slices, None)
    }

    /// With a slip of the other side.
    pub fn slipped(slices: Slices, slip: Option<LastCardSlip>) -> Both {
        let state = slices.read().zip(slices.limits());
        let solver = state.map(|(state, limits)| Solver::new(state, Options::with(limits)));
        let flags = solver.as_ref().map_or(0, |solver| solver.state.formula.free_count());
        Both { slices, cards: Cards::none(), solver, last: LastCard::none(flags, slip) }
    }

    /// The answer to a line, its text, and what kind of call it was.
    fn expected(&mut self, line: &[u8], number: u64) -> (String, Answer, &'static str) {
        let formula = self.solver.as_ref().map_or(Formula::default(), |s| s.state.formula.clone());
        let asked = (line.len() <= LARGEST_LINE).then(|| session::request(line)).flatten();
        let (call, answer, kind) = match (asked, &mut self.solver) {
            (None, _) => (Call::Forget, Answer::new(Said::Refused(1)), "no call"),
            (Some(Request::Page(page)), _) => {
                let printed = session::print_page(&mut self.last, page, number as usize);
                let refused = printed.starts_with("(refused 36 ");
                let said = if refused { Said::Refused(36) } else { Said::Written(printed.len()) };
                return (printed, Answer::new(said), "page");
            }
            (Some(Request::Call(call, ceiling)), solver) => {
                let table = if call.searches() { vec![0; call.table()] } else { vec![] };
                let refused = || Answer { said: Said::Refused(22), table, visits: 0 };
                let within = |solver: &mut Solver| solver.call_within(&call, ceiling);
                let answer = solver.as_mut().map_or_else(refused, within);
                self.last.after(&call, &answer);
                let kind = kind(&call);
                (call, answer, kind)
            }
        };
        (session::print(&call, &formula, &answer, number as usize), answer, kind)
    }

    /// A line on both sides: the answer's text, a card's table and the next state, cell by cell.
    pub fn hold(&mut self, line: &[u8], number: u64, counts: &mut Counts) -> Result<Said, String> {
        let (expected, Answer { said, table, visits }, kind) = self.expected(line, number);
        let (before, cards) = (self.slices.clone(), self.cards.clone());
        let (slices, shows) = (&mut self.slices, &mut self.cards);
        let found = with_page(|page| page.line(slices, line, number, shows))?;
        let differs = |what: String| Err(format!("line {number}, {}: {what}", shown(line)));
        let Some(text) = found else { return differs("31 for a whole table".into()) };
        if text != expected.as_bytes() {
            return differs(format!("{}, not {}", shown(&text), shown(expected.as_bytes())));
        }
        let makes_card = matches!(kind, "card" | "keep card" | "closest");
        // What stands behind the given size is not of the card.
        let of_card = if makes_card { table.len() } else { 0 };
        if self.cards.table[of_card..] != cards.table[of_card..] {
            return differs("cards are written".into());
        }
        if !self.cards.table.starts_with(&table[..of_card]) {
            return differs("another table".into());
        }
        if kind == "page" && self.cards.shown != cards.shown {
            return differs("a page changes the card answered last".into());
        }
        let mut next = before;
        let kept = matches!(said, Said::Refused(_)) && visits == 0;
        if let (Some(solver), false) = (&self.solver, kept) {
            next.write(&solver.state);
        }
        if self.slices != next {
            return differs("another state, or a cell outside its counts is written".into());
        }
        let refusal = if let Said::Refused(number) = said { number.into() } else { 0 };
        counts.call(kind, refusal);
        counts.visits += visits;
        Ok(said)
    }
}

/// Up to so many variables every line that comes of a fault is affordable.
const SMALL: Shape =
    Shape { variables: (0, 10), clauses: (0, 20), literals: (1, 5), visits: 4_000, calls: 16 };

/// A state, calls for its lines, and whether faults may stand in them.
fn drawn(seed: u64, index: u64) -> Result<(Slices, Vec<Call>, bool), String> {
    let random = &mut numbers(seed, 15, index);
    let of = |Case { slices, calls, .. }: Case| {
        (slices, calls.into_iter().map(|asked| asked.call).collect(), false)
    };
    Ok(match index % 4 {
        0 | 1 => {
            let book = Book::draw(SMALL, Walk::Plain, random);
            let calls = SMALL.calls(&book, Walk::Plain, random);
            let text = texts::book(&book.formula, random);
            let opened = library::open(&text, &Room::of(&book.limits))?;
            (opened.slices, calls, true)
        }
        2 => of(draw(Source::GivenStore, seed, index).case),
        _ => of(draw(Source::Malformed, seed, index).case),
    })
}

/// A card's table in a line has up to 65,536 bytes.
fn narrowed(call: Call) -> Call {
    match call {
        Call::Card(length) => Call::Card(length.min(65_536)),
        Call::KeepCard(length) => Call::KeepCard(length.min(65_536)),
        Call::Closest(reading, length) => Call::Closest(reading, length.min(65_536)),
        // Now and then without a size: then the whole text is written.
        Call::Write(length) if length % 3 == 0 => Call::Write(compare::write::WHOLE),
        Call::Write(length) => Call::Write(length.min(65_536)),
        call => call,
    }
}

pub fn round(seed: u64, index: u64, counts: &mut Counts) -> Result<(), String> {
    counts.input("sessions");
    let (slices, lines) = held(seed, index, None, counts)?;
    let Some(error) = lines.error else { return Ok(()) };
    let smallest = smallest(&slices, &lines.asked);
    Err(format!("sessions {index} of seed {seed}: {error}\n{smallest}"))
}

/// Lines with their numbers, up to the first on which the sides differ.
#[derive(Default)]
pub struct Lines {
    asked: Vec<(Vec<u8>, u64)>,
    pub error: Option<String>,
}

/// A drawn session on both sides, with a slip of the other one.
pub fn held(
    seed: u64,
    index: u64,
    slip: Option<LastCardSlip>,
    counts: &mut Counts,
) -> Result<(Slices, Lines), String> {
    let (slices, calls, small) = drawn(seed, index)?;
    let random = &mut numbers(!seed, 15, index);
    let (mut both, mut lines) = (Both::slipped(slices.clone(), slip), Lines::default());
    let mut number = random.pick(&[0, 1, 5, 250, 4_294_967_295, u64::MAX - 100]);
    for call in calls {
        let call = narrowed(call);
        let ceiling = input::ceiling(&call, both.solver.as_ref(), random);
        let takes = call.searches() || random.one_in(20);
        let given = (takes && random.one_in(2)).then_some(ceiling);
        let mut line = texts::line(&call, given);
        if small && random.one_in(2) {
            texts::spoil(&mut line, random);
        }
        number += 1;
        let asked = format!("(page {})", random.pick(&[1, 1, 1, 2, 0, 3, 99_999]));
        for line in [line, asked.into_bytes()] {
            lines.error = both.hold(&line, number, counts).err();
            lines.asked.push((line, number));
            if lines.error.is_some() {
                return Ok((slices, lines));
            }
        }
    }
    Ok((slices, lines))
}

/// The state, and the lines without those that are not needed for the difference.
fn smallest(slices: &Slices, lines: &[(Vec<u8>, u64)]) -> String {
    let mut lines = lines.to_vec();
    let differs = |lines: &[(Vec<u8>, u64)]| {
        let mut both = Both::new(slices.clone());
        lines.iter().any(|(l, number)| both.hold(l, *number, &mut Counts::default()).is_err())
    };
    for index in (0..lines.len()).rev() {
        let line = lines.remove(index);
        if !differs(&lines) {
            lines.insert(index, line);
        }
    }
    let lines: String = lines.iter().map(|(line, n)| format!("{n}: {}\n", shown(line))).collect();
    format!("limits {:?}, {:?}\n{lines}", slices.limits(), slices.read())
}

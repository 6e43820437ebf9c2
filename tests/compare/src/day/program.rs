//! The program `day`: a total, up to eight books, then calls at places.

use super::{Day, DaySlip, PLACES};
use crate::answer::{Answer, Call, Said};
use crate::formula::Formula;
use crate::last_card::LastCard;
use crate::layout;
use crate::options::{Limits, Options};
use crate::session::{self, Request, LARGEST_LINE};
use crate::text::{self, TextRefusal, LARGEST_TEXT};
use std::io::{self, BufRead, Write};

/// Answers the whole of an input.
pub fn run(
    mut input: impl BufRead,
    mut output: impl Write,
    slip: Option<DaySlip>,
) -> io::Result<()> {
    let first = read_line(&mut input)?.flatten();
    let Some(total) = first.and_then(|line| total(&line)) else {
        writeln!(output, "(refused 1 1)")?;
        return output.flush();
    };
    let mut serving =
        Serving { day: Day { slip, ..Day::new(total) }, books: Default::default(), line: 1 };
    let mut pending = serving.load(&mut input, &mut output)?;
    if slip == Some(DaySlip::LinesOfTheText) {
        serving.line = 1;
    }
    while let Some(line) = pending {
        let printed = serving.answer(line.as_deref());
        output.write_all(printed.as_bytes())?;
        output.flush()?;
        pending = read_line(&mut input)?;
        serving.line += 1;
    }
    Ok(())
}

/// A line of the input: none within it where it is too long or lacks its byte 10.
type Line = Option<Vec<u8>>;

/// The next line without its byte 10; none at the end of the input.
fn read_line(input: &mut impl BufRead) -> io::Result<Option<Line>> {
    let mut line = vec![];
    if input.read_until(b'\n', &mut line)? == 0 {
        return Ok(None);
    }
    let ended = line.pop() == Some(b'\n');
    Ok(Some((ended && line.len() <= LARGEST_LINE).then_some(line)))
}

/// `(day T)`, "T digits as a ceiling".
fn total(line: &[u8]) -> Option<u32> {
    let digits = line.strip_prefix(b"(day ")?.strip_suffix(b")")?;
    layout::long_number(digits)
}

/// A place line: its keyword is `place`, whatever follows.
fn is_place(line: &[u8]) -> bool {
    let rest = line.strip_prefix(b"(place");
    rest.is_some_and(|rest| !matches!(rest.first(), Some(b'a'..=b'z' | b'-')))
}

/// `(place 1)` or `(place 1 1000 4000)`: "the limits of this place's book".
fn place(line: &[u8]) -> Option<(usize, Limits)> {
    let (keyword, items) = layout::items(line)?;
    if keyword != b"place" || items.iter().any(|item| item.negated) {
        return None;
    }
    let numbers: Vec<usize> = items.iter().map(|item| item.number as usize).collect();
    let limits = match numbers[..] {
        [_] => Limits::PAPER,
        [_, numbers, rules] => Limits::own(numbers, rules),
        _ => return None,
    };
    (1..=PLACES).contains(&numbers[0]).then_some((numbers[0], limits))
}

/// `(at K CALL)` "with a call of `session`".
fn at(line: &[u8]) -> Option<(usize, Request)> {
    let rest = line.strip_prefix(b"(at ")?.strip_suffix(b")")?;
    let end = rest.iter().position(|&byte| byte == b' ')?;
    let place = layout::number(&rest[..end])?;
    Some((place as usize, session::request(&rest[end + 1..])?))
}

/// An opened book of the day: its formula and the card answered last.
struct Book {
    formula: Formula,
    last: LastCard,
}

struct Serving {
    day: Day,
    books: [Option<Book>; PLACES],
    /// The line read last, counted in the input.
    line: usize,
}

impl Serving {
    /// Reads the places and their texts; hands on the line that ends the loading.
    fn load(
        &mut self,
        input: &mut impl BufRead,
        output: &mut impl Write,
    ) -> io::Result<Option<Line>> {
        let mut given = [false; PLACES];
        loop {
            let next = read_line(input)?;
            self.line += 1;
            let Some(Some(line)) = &next else { return Ok(next) };
            if !is_place(line) {
                return Ok(next);
            }
            let again = self.day.slip == Some(DaySlip::PlaceGivenAgain);
            let placed = place(line).filter(|(place, _)| again || !given[place - 1]);
            let Some((place, limits)) = placed else {
                writeln!(output, "(refused 1 {})", self.line)?;
                if self.day.slip != Some(DaySlip::TextNotSkipped) {
                    self.text(input)?;
                }
                continue;
            };
            given[place - 1] = true;
            let limits =
                if self.day.slip == Some(DaySlip::LimitsLost) { Limits::PAPER } else { limits };
            let text = self.text(input)?;
            let said = match self.open(&text, limits, place) {
                Ok(()) => String::from("(opened)"),
                Err(TextRefusal { number, line }) => format!("(refused {number} {line})"),
            };
            writeln!(output, "(at {place})\n{said}")?;
            output.flush()?;
        }
    }

    /// The input to its next line `(end)`, or to its end: a text, of which no more is kept than makes it too long.
    fn text(&mut self, input: &mut impl BufRead) -> io::Result<Vec<u8>> {
        let mut text = vec![];
        loop {
            let mut line = vec![];
            if input.read_until(b'\n', &mut line)? == 0 {
                return Ok(text);
            }
            self.line += 1;
            text.extend_from_slice(&line);
            text.truncate(LARGEST_TEXT + 1);
            if line == b"(end)\n" {
                return Ok(text);
            }
        }
    }

    fn open(&mut self, text: &[u8], limits: Limits, place: usize) -> Result<(), TextRefusal> {
        let options = Options::with(limits);
        let formula = text::open(text, &options)?;
        let last = LastCard::none(formula.free_count(), None);
        self.day.load(place, formula.clone(), options);
        self.books[place - 1] = Some(Book { formula, last });
        Ok(())
    }

    /// What is printed for a line behind the loading.
    fn answer(&mut self, line: Option<&[u8]>) -> String {
        let Some(line) = line else { return format!("(refused 1 {})\n", self.line) };
        if line == b"(shares)" {
            return self.shares();
        }
        match at(line) {
            Some((place, request)) => format!("(at {place})\n{}", self.at(place, request)),
            None => format!("(refused 1 {})\n", self.line),
        }
    }

    fn at(&mut self, place: usize, request: Request) -> String {
        let line = self.line;
        let Some(index) = self.day.place(place) else { return format!("(refused 38 {line})\n") };
        match request {
            Request::Call(call, ceiling) => self.call(index, &call, ceiling),
            Request::Page(number) => {
                let any = self.day.slip == Some(DaySlip::CardOfAnotherPlace);
                let index = if any { 0 } else { index };
                match &mut self.books[index] {
                    Some(book) => session::print_page(&mut book.last, number, line),
                    None => format!("(refused 36 {line})\n"),
                }
            }
        }
    }

    fn call(&mut self, index: usize, call: &Call, ceiling: u32) -> String {
        let answer = self.day.call(index + 1, call, ceiling);
        let book = self.books[index].as_mut().expect("a place with a book");
        // "both leave what 34 leaves".
        let told = match answer.said {
            Said::Refused(37) => Answer { said: Said::Refused(34), ..answer.clone() },
            _ => answer.clone(),
        };
        book.last.after(call, &told);
        session::print(call, &book.formula, &answer, self.line)
    }

    /// "one line for all eight places, U what was used and A what a call there may still use".
    fn shares(&self) -> String {
        let accounts = &self.day.accounts;
        let place = |index: usize| {
            let (used, left) = (accounts.used[index], accounts.left(index, self.day.slip));
            format!(" (place {} (used {used}) (left {left}))", index + 1)
        };
        let places: String = (0..PLACES).map(place).collect();
        format!("(shares (total {}){places})\n", accounts.total)
    }
}

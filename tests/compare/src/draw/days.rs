//! Random days: a total around what the calls of all books, or of one, need; places without a book; calls that are
//! stopped by their own ceiling or by the shared total.

use super::lines;
use crate::answer::{Call, HIGHEST_CEILING};
use crate::day::{Day, PLACES};
use crate::finder::{Shape, Source};
use crate::formula::Formula;
use crate::options::{Limits, Options};
use crate::random::Random;
use crate::write;

/// Books by place, from 0, and calls at places, from 1.
#[derive(Clone, Debug)]
pub struct Drawn {
    pub total: u32,
    pub books: [Option<(Formula, Limits)>; PLACES],
    pub calls: Vec<(usize, Call, u32)>,
}

impl Drawn {
    /// The day as it starts, "all visits used are then 0".
    pub fn day(&self) -> Day {
        let mut day = Day::new(self.total);
        for (index, book) in self.books.iter().enumerate() {
            if let Some((formula, limits)) = book {
                day.load(index + 1, formula.clone(), Options::with(*limits));
            }
        }
        day
    }
}

pub fn draw(random: &mut Random) -> Drawn {
    let mut books: [Option<(Formula, Limits)>; PLACES] = Default::default();
    let mut lists = vec![];
    let empty = random.pick(&[2, 3, 8]);
    for book in &mut books {
        let shape = Shape { calls: 8, ..Shape::of_attempt(random.below(4)) };
        let case = shape.case(Source::Opened, random);
        lists.push(case.calls);
        if !random.one_in(empty) {
            let formula = case.state.formula;
            let limits = match random.one_in(2) {
                true => Limits::PAPER,
                false => {
                    let numbers = formula.prefix.len() + random.below(3);
                    Limits::own(numbers, formula.clauses.len() + random.below(3))
                }
            };
            *book = Some((formula, limits));
        }
    }
    let calls = calls(&mut lists, random);
    let mut drawn = Drawn { total: u32::MAX, books, calls };
    drawn.total = total(&drawn, random);
    drawn
}

/// The books' own lists by turns, now and then a call outside the places.
fn calls(lists: &mut [Vec<Call>], random: &mut Random) -> Vec<(usize, Call, u32)> {
    let mut calls = vec![];
    // Most of a day's calls are at few places.
    let favourite = random.below(PLACES);
    for _ in 0..random.between(1, 30) {
        let index = if random.one_in(3) { favourite } else { random.below(PLACES) };
        let call = lists[index].pop().unwrap_or(Call::Card(40));
        let place = if random.one_in(40) { random.pick(&[0, 9, 65_535]) } else { index + 1 };
        let ceilings = [0, 1, 3, 9, 20, HIGHEST_CEILING, HIGHEST_CEILING, HIGHEST_CEILING];
        calls.push((place, call, random.pick(&ceilings)));
    }
    calls
}

/// Around the visits that all calls need, or those of one book, where nothing is shared; below 8; with any remainder.
fn total(drawn: &Drawn, random: &mut Random) -> u32 {
    let mut day = drawn.day();
    for (place, call, ceiling) in &drawn.calls {
        day.call(*place, call, *ceiling);
    }
    let used = day.accounts.used;
    let (all, one) = (used.iter().sum::<u32>(), random.pick(&used));
    let near = |need: u32, random: &mut Random| (need + random.below(3) as u32).saturating_sub(1);
    match random.below(7) {
        0 => random.below(8) as u32,
        1 => near(all, random),
        // The floor is what one book needs, with a remainder.
        2 => near(one, random) * 8 + random.below(8) as u32,
        // Floor and remainder together are what it needs.
        3 => {
            let rest = random.below(8) as u32;
            near(one, random).saturating_sub(rest) * 8 + rest
        }
        4 => all * random.between(1, 8) as u32 + random.below(8) as u32,
        5 => random.below(2_000) as u32,
        _ => random.pick(&[u32::MAX, u32::MAX - 1, 1 << 31, 8_000]),
    }
}

/// The input of the program `day`: the same books and calls; the calls that no line asks for are left out.
pub fn text(drawn: &Drawn, random: &mut Random) -> Vec<u8> {
    let mut text = format!("(day {})\n", drawn.total);
    let mut places: Vec<usize> = (1..=PLACES).collect();
    random.shuffle(&mut places);
    for place in places {
        let Some((formula, limits)) = &drawn.books[place - 1] else {
            text += &refused(place, random);
            continue;
        };
        let usual = *limits == Limits::PAPER && random.one_in(2);
        let own = format!(" {} {}", limits.numbers, limits.clauses);
        text += &format!("(place {place}{})\n", if usual { "" } else { &own });
        text += &write::text(formula, &Options::paper());
        if random.one_in(12) {
            // Given again, it is skipped.
            text += &format!("(place {place})\n(book 1)\n(flags)\n(end)\n");
        }
    }
    for (place, call, ceiling) in &drawn.calls {
        if let Some(line) = lines::line(call, *ceiling).filter(|_| *place <= 99_999) {
            text += &format!("(at {place} {line})\n");
        }
        text += &match random.below(12) {
            0 => "(shares)\n".into(),
            1 | 2 => format!("(at {place} (page 1))\n"),
            3 => format!("(at {} (page 1))\n", random.between(1, PLACES)),
            4 => "(at 2 (page 1)\n".into(),
            _ => String::new(),
        };
    }
    text += "(shares)\n";
    text.into_bytes()
}

/// Nothing for a place, a text that is refused, or a line that is out of its form.
fn refused(place: usize, random: &mut Random) -> String {
    let body = random.pick(&[
        "(book 1)\n(flags 1)\n(rule 2)\n(end)\n",
        "(book 3)\n(end)\n",
        "(end)\n",
        "(book 1)\n(flags 1 1)\nx\n(end)\n",
    ]);
    match random.below(4) {
        0 => format!("(place {place})\n{body}"),
        1 => format!("(place {place} 40)\n{body}"),
        2 => format!("(place {place} 0 1000)\n(book 1)\n(flags 1)\n(end)\n"),
        _ => String::new(),
    }
}

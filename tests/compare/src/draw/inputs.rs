//! Random inputs of the programs: arguments near what a book needs, books of up to 1,000 variables or with a fault, and
//! the lines of calls.

use super::wide::{Plan, Wide};
use super::{days, lines, on_a_large_stack, under_ceilings};
use crate::answer::{Call, Said, Subject};
use crate::cases::{Program, StoredCase};
use crate::editions;
use crate::finder::{Shape, Source};
use crate::formula::{Formula, Quantifier, Variable};
use crate::limits;
use crate::options::{Limits, Options, MOST_FLAGS};
use crate::qdimacs;
use crate::random::Random;
use crate::solver::Solver;
use crate::{text, write};

/// A search of a program without a ceiling makes at most so many visits.
const VISITS: u32 = 3_000;

/// An input as a case whose output is not stored: `printed` tells it.
pub fn draw(program: Program, random: &mut Random) -> StoredCase {
    let input = |arguments: Vec<String>, input: Vec<u8>| StoredCase {
        name: "drawn".into(),
        program,
        arguments,
        input,
        expected: vec![],
    };
    if program == Program::Day {
        let text = days::text(&days::draw(random), random);
        return input(vec![], text);
    }
    loop {
        let (formula, calls) = book(random);
        let arguments = arguments(&formula, random);
        let mut text = book_text(program, &formula, random);
        if random.one_in(4) {
            spoil(&mut text, random);
        }
        let given = limits::arguments(&arguments, None);
        let own = given.map_or(Limits::PAPER, |(numbers, rules)| Limits::own(numbers, rules));
        let options = Options::with(own);
        let opened = text::open(&text, &options).map(|formula| Solver::opened(formula, options));
        if opened.as_ref().is_ok_and(|solver| !is_affordable(solver)) {
            continue;
        }
        match (program, opened) {
            (Program::Session, Ok(solver)) => text.extend(calls_on(solver, &calls, random)),
            // No call is answered behind a refused book.
            (Program::Session, Err(_)) => text.extend(b"(card (ceiling 9))\n(forget)\n"),
            _ => {}
        }
        return input(arguments, text);
    }
}

fn book_text(program: Program, formula: &Formula, random: &mut Random) -> Vec<u8> {
    match program {
        Program::Qdimacs => qdimacs_text(formula, random),
        Program::Untag => second_edition(formula, random),
        Program::Card | Program::Session | Program::Pages if random.one_in(8) => {
            second_edition(formula, random)
        }
        _ => first_edition(formula, random),
    }
}

fn is_affordable(solver: &Solver) -> bool {
    let mut solver = solver.clone();
    let answer = on_a_large_stack(|| solver.call_within(&Call::Card(1 << 16), VISITS));
    answer.said != Said::Refused(34)
}

/// A book whose card is affordable, and calls on it.
fn book(random: &mut Random) -> (Formula, Vec<Call>) {
    loop {
        let (mut formula, calls) = match random.below(3) {
            0 => {
                let wide = Wide::draw(Plan::of_attempt(random.below(4), random), random);
                let calls = wide.calls.iter().map(|call| wide.call(call, random)).collect();
                (wide.formula, calls)
            }
            _ => {
                let shape = Shape { calls: 10, ..Shape::of_attempt(random.below(4)) };
                let case = shape.case(Source::Opened, random);
                (case.state.formula, case.calls)
            }
        };
        if random.one_in(8) {
            more_flags(&mut formula, random);
        }
        let options = Options::with(Limits::HIGHEST);
        if is_affordable(&Solver::opened(formula.clone(), options)) {
            return (formula, calls);
        }
    }
}

/// Flags of no use behind the others, up to about 40: at times one too many, which may be declared before or be out of
/// range.
fn more_flags(formula: &mut Formula, random: &mut Random) {
    let wanted = random.between(38, 43);
    let mut number = 0;
    while formula.free_count() < wanted {
        if formula.free_count() == MOST_FLAGS && random.one_in(2) {
            let first = formula.prefix[0].number;
            let number = random.pick(&[first, first, 1_001]);
            formula.prefix.insert(MOST_FLAGS, Variable { number, quantifier: Quantifier::Free });
            return;
        }
        number += 1;
        if formula.prefix.iter().all(|variable| variable.number != number) {
            let at = formula.free_count();
            formula.prefix.insert(at, Variable { number, quantifier: Quantifier::Free });
        }
    }
}

/// Just what a book needs, one less, some more, the caps and above; none; or no limits at all.
fn arguments(formula: &Formula, random: &mut Random) -> Vec<String> {
    let words = |words: &[&str]| words.iter().map(|word| word.to_string()).collect();
    match random.below(20) {
        0 => {
            let wrong: [&[&str]; 6] =
                [&["40"], &["40", "255", "1"], &["040", "9"], &["x", "9"], &["9", "-9"], &["", ""]];
            return words(random.pick(&wrong));
        }
        1..=4 => return vec![],
        _ => {}
    }
    let near = |need: usize, cap: usize, random: &mut Random| match random.below(6) {
        0 => need.saturating_sub(1),
        1 | 2 => need,
        3 => need + random.below(5),
        4 => cap + random.below(2),
        _ => random.pick(&[cap, 99_999, need]),
    };
    let highest = formula.prefix.iter().map(|variable| variable.number as usize).max();
    let numbers = near(highest.unwrap_or(0), 1_000, random);
    let rules = near(formula.clauses.len(), 4_000, random);
    vec![numbers.to_string(), rules.to_string()]
}

/// Our own text, at times with an exactly-one form of two or three flags among its rules.
fn first_edition(formula: &Formula, random: &mut Random) -> Vec<u8> {
    let mut text = write::text(formula, &Options::paper());
    let flags: Vec<i16> = formula.prefix.iter().map(|variable| variable.number).collect();
    if flags.len() > 3 && random.one_in(5) {
        let twice = [flags[0], flags[0]];
        let form = random.pick(&[&flags[..2], &flags[..3], &flags[..1], &twice[..]]);
        let items: String = form.iter().map(|number| format!(" {number}")).collect();
        text = text.replacen("(end)\n", &format!("(one{items})\n(end)\n"), 1);
    }
    text.into_bytes()
}

/// The same with the tags of a conversion, or with any.
fn second_edition(formula: &Formula, random: &mut Random) -> Vec<u8> {
    let text = first_edition(formula, random);
    let options = Options::with(Limits::HIGHEST);
    let tagged = editions::tagged(&text, usize::MAX, &options, None);
    let mut text = tagged.unwrap_or(text);
    if random.one_in(4) {
        let with = random.pick(&["(tag 2)", "(tag 0)", "(tag 65535)", "(tag 65536)", "(tag 01)"]);
        let tag = random.pick(&["(tag 1)", "(tag 2)", "(tag 3)"]);
        text = String::from_utf8_lossy(&text).replacen(tag, with, 1).into_bytes();
    }
    text
}

/// A header at times with other counts, and comments.
fn qdimacs_text(formula: &Formula, random: &mut Random) -> Vec<u8> {
    let named = qdimacs::by_place(formula);
    let mut lines = qdimacs::lines(&named, || random.one_in(6));
    let (variables, clauses) = (formula.prefix.len(), formula.clauses.len());
    if random.one_in(3) {
        let many = [variables, variables + 1, variables + 45, variables + 45, 1_000, 1_001];
        let variables = random.pick(&many);
        let clauses = random.pick(&[clauses, clauses + 1]);
        lines[0] = format!("p cnf {variables} {clauses}");
    }
    if random.one_in(4) {
        lines.insert(random.below(lines.len() + 1), "c a comment".into());
    }
    (lines.join("\n") + "\n").into_bytes()
}

/// A fault in a text: a line twice, one left out, one with other numbers, a byte changed.
fn spoil(text: &mut Vec<u8>, random: &mut Random) {
    let mut lines: Vec<Vec<u8>> =
        text.split_inclusive(|&byte| byte == b'\n').map(<[u8]>::to_vec).collect();
    let index = random.below(lines.len());
    match random.below(5) {
        0 => lines.insert(index, lines[index].clone()),
        1 => drop(lines.remove(index)),
        2 => {
            let line = String::from_utf8_lossy(&lines[index]).into_owned();
            let number = random.pick(&["0", "1", "41", "256", "1000", "1001", "100000", "01"]);
            lines[index] = line.replacen(" 1", &format!(" {number}"), 1).into_bytes();
        }
        3 => {
            let at = random.below(lines[index].len());
            lines[index][at] = random.pick(b" ()0195er\n\r-");
        }
        _ => {
            let others = ["(rule)\n", "(exists)\n", "(flags 1)\n", "(end)\n", "\n", "(one 1)\n"];
            lines.insert(index, random.pick(&others).into());
        }
    }
    *text = lines.concat();
}

/// Lines of calls, most under a ceiling around what they need; pages and lines out of their form among them.
fn calls_on(solver: Solver, calls: &[Call], random: &mut Random) -> Vec<u8> {
    let list = on_a_large_stack(|| under_ceilings(calls, solver, VISITS, random));
    let mut text = String::new();
    for (call, ceiling) in list {
        if let Some(line) = lines::line(&call, ceiling) {
            text += &(line + "\n");
        }
        text += random.pick(&["", "", "", "", "(page 1)\n", "(page 2)\n", "(card (ceiling 01))\n"]);
    }
    text.into_bytes()
}

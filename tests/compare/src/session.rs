//! The program `session`: a book, then one call to a line, each answered when its line is read.

use crate::answer::{Answer, Call, Said, Subject, HIGHEST_CEILING};
use crate::closest::Closest;
use crate::formula::{Formula, Variable};
use crate::last_card::{LastCard, LastCardSlip};
use crate::layout::{self, CallLine, Item};
use crate::options::Options;
use crate::reading::Reading;
use crate::solver::Solver;
use crate::text::{self, LARGEST_TEXT, PROGRAM_TABLE};
use crate::write;
use std::io::{self, BufRead, Read, Write};

/// The longest line of a call, counted without its byte 10.
pub const LARGEST_LINE: usize = 65_536;

/// What a line asks for.
#[derive(Clone, Debug, PartialEq, Eq)]
pub enum Request {
    /// A call and its ceiling.
    Call(Call, u32),
    /// A page of the card answered last.
    Page(usize),
}

/// Answers the whole of an input.
pub fn run(input: impl BufRead, output: impl Write, options: &Options) -> io::Result<()> {
    run_on(input, output, options, None, |formula| Solver::opened(formula, *options))
}

/// Answers the whole of an input by what `start` makes of the opened formula.
pub fn run_on<S: Subject>(
    mut input: impl BufRead,
    mut output: impl Write,
    options: &Options,
    slip: Option<LastCardSlip>,
    start: impl FnOnce(Formula) -> S,
) -> io::Result<()> {
    let book = read_book(&mut input)?;
    let formula = match text::open(&book, options) {
        Ok(formula) => formula,
        Err(refused) => {
            writeln!(output, "(refused {} {})", refused.number, refused.line)?;
            return output.flush();
        }
    };
    let mut subject = start(formula.clone());
    let mut last = LastCard::none(formula.free_count(), slip);
    let mut line = book.iter().filter(|&&byte| byte == b'\n').count();
    while let Some(asked) = read_request(&mut input)? {
        line += 1;
        let printed = match asked {
            Some(Request::Call(call, ceiling)) => {
                let answer = subject.call_within(&call, ceiling);
                last.after(&call, &answer);
                print(&call, &formula, &answer, line)
            }
            Some(Request::Page(number)) => print_page(&mut last, number, line),
            None => refusal(1, line),
        };
        output.write_all(printed.as_bytes())?;
        output.flush()?;
    }
    Ok(())
}

/// The input up to and with its first line `(end)`. Where there is none, all of the input, or as
/// much of it as makes the text too long.
fn read_book(input: &mut impl BufRead) -> io::Result<Vec<u8>> {
    let mut text = vec![];
    while text.len() <= LARGEST_TEXT {
        let start = text.len();
        let room = LARGEST_TEXT + 1 - start;
        let read = input.take(room as u64).read_until(b'\n', &mut text)?;
        if read == 0 || &text[start..] == b"(end)\n" {
            break;
        }
    }
    Ok(text)
}

/// The next line: none at the end of the input; within it the request, where the line holds one.
fn read_request(input: &mut impl BufRead) -> io::Result<Option<Option<Request>>> {
    let mut line = vec![];
    let room = LARGEST_LINE + 1;
    if input.take(room as u64).read_until(b'\n', &mut line)? == 0 {
        return Ok(None);
    }
    let ended = line.pop() == Some(b'\n');
    if !ended && line.len() == LARGEST_LINE {
        input.skip_until(b'\n')?;
    }
    Ok(Some(if ended { request(&line) } else { None }))
}

/// The request on a line, without its byte 10. None: no request stands there.
pub fn request(line: &[u8]) -> Option<Request> {
    let CallLine { keyword, items, bytes, ceiling } = layout::call_line(line)?;
    if keyword == b"closest" {
        let bytes = bytes.map_or(Some(PROGRAM_TABLE), table)?;
        let ceiling = ceiling.unwrap_or(HIGHEST_CEILING);
        return Some(Request::Call(Call::Closest(reading(&items), bytes), ceiling));
    }
    if bytes.is_some() {
        return None;
    }
    if keyword == b"page" {
        return match (&items[..], ceiling) {
            ([number], None) if !number.negated => Some(Request::Page(number.number as usize)),
            _ => None,
        };
    }
    // "Without it the ceiling is the highest"; no other call has one.
    let call = call(keyword, &items).filter(|call| call.searches() || ceiling.is_none())?;
    Some(Request::Call(call, ceiling.unwrap_or(HIGHEST_CEILING)))
}

fn call(keyword: &[u8], items: &[Item]) -> Option<Call> {
    let literals = || items.iter().map(|item| narrow(item.literal())).collect();
    let plain = !items.iter().any(|item| item.negated);
    match (keyword, items) {
        (b"rule", _) => Some(Call::Rule(literals())),
        (b"one", _) => Some(Call::One(literals())),
        (b"withdraw", []) => Some(Call::Withdraw),
        (b"query", _) => Some(Call::Query(reading(items))),
        (b"card", []) => Some(Call::Card(PROGRAM_TABLE)),
        (b"card", [length]) if plain => table(length.number).map(Call::Card),
        (b"keep-card", []) => Some(Call::KeepCard(PROGRAM_TABLE)),
        (b"keep-card", [length]) if plain => table(length.number).map(Call::KeepCard),
        (b"forget", []) => Some(Call::Forget),
        (b"write", []) => Some(Call::Write(write::WHOLE)),
        (b"write", [length]) if plain => table(length.number).map(Call::Write),
        _ => None,
    }
}

/// "on flags as numbers, off flags as `(no ..)`, in any order, flags not named are open".
fn reading(items: &[Item]) -> Reading {
    let numbers = |negated: bool| {
        let named = items.iter().filter(|item| item.negated == negated);
        named.map(|item| narrow(item.number)).collect()
    };
    Reading { on: numbers(false), off: numbers(true) }
}

/// The bytes of a table, 0 to 65,536.
fn table(length: i32) -> Option<usize> {
    usize::try_from(length).ok().filter(|&length| length <= PROGRAM_TABLE)
}

/// A number of up to five digits as a literal: one that 16 bits do not hold stays a number that
/// no variable has.
fn narrow(number: i32) -> i16 {
    number.clamp(-i32::from(i16::MAX), i32::from(i16::MAX)) as i16
}

fn refusal(number: u8, line: usize) -> String {
    format!("(refused {number} {line})\n")
}

/// "24 rows: page K of the card .. answered last", or 36.
pub fn print_page(last: &mut LastCard, number: usize, line: usize) -> String {
    match last.page(number) {
        Ok(rows) => String::from_utf8(rows).expect("rows are ASCII"),
        Err(number) => refusal(number, line),
    }
}

/// What is printed for an answer. The formula is the opened one: calls change no declaration.
pub fn print(call: &Call, formula: &Formula, answer: &Answer, line: usize) -> String {
    let visits = answer.visits;
    let word = if matches!(call, Call::KeepCard(_)) { "keep-card" } else { "card" };
    match answer.said {
        Said::Added => "(accepted)\n".into(),
        Said::Withdrawn => "(withdrawn)\n".into(),
        Said::Forgotten => "(forgotten)\n".into(),
        Said::Swap => format!("(swap (visits {visits}))\n"),
        Said::Keep => format!("(keep (visits {visits}))\n"),
        Said::Unsettled => format!("(unsettled (visits {visits}))\n"),
        Said::Refused(number @ (21 | 34 | 35 | 37)) => {
            format!("(refused {number} {line} (visits {visits}))\n")
        }
        Said::Refused(number) => refusal(number, line),
        Said::Closest(found) => print_closest(formula, &found, visits),
        Said::Lines(count) => text::print_card(word, formula, count, &answer.table, visits),
        Said::Written(length) => String::from_utf8_lossy(&answer.table[..length]).into(),
    }
}

/// "the reading has every flag in place order, off as `(no ..)`".
fn print_closest(formula: &Formula, found: &Closest, visits: u64) -> String {
    let flags = formula.prefix[..formula.free_count()].iter().zip(&found.reading);
    let flag = |(flag, value): (&Variable, &u8)| match value {
        1 => format!(" (no {})", flag.number),
        _ => format!(" {}", flag.number),
    };
    let reading: String = flags.map(flag).collect();
    let Closest { differs, lines, .. } = found;
    format!("(closest (reading{reading}) (differs {differs}) (lines {lines}) (visits {visits}))\n")
}

#[cfg(test)]
mod tests {
    use super::*;

    const A: &str = "(book 1)\n(flags 1 2)\n(exists 3)\n(forall 4)\n(rule 3 4 (no 1))\n\
                     (rule (no 3) (no 4) 2)\n(rule 1 2)\n(end)\n";
    const A_CARD: &str = "(card 1)\n(line (no 1) 2)\n(line 1 2)\n";

    fn answers(input: impl AsRef<[u8]>) -> String {
        let mut output = vec![];
        run(input.as_ref(), &mut output, &Options::paper()).expect("bytes can be read and written");
        String::from_utf8(output).expect("answers are ASCII")
    }

    /// The answers to calls on book A.
    fn on_a(calls: &str) -> String {
        answers(A.to_owned() + calls)
    }

    #[test]
    fn every_call_has_its_answer() {
        assert_eq!(on_a(""), "");
        assert_eq!(
            on_a("(query 1 (no 2))\n(query (no 2) 1)\n"),
            "(keep (visits 3))\n(keep (visits 1))\n"
        );
        assert_eq!(on_a("(query (no 1) 2)\n"), "(swap (visits 1))\n");
        assert_eq!(on_a("(query 2)\n"), "(swap (visits 7))\n");
        assert_eq!(on_a("(query (no 2))\n"), "(keep (visits 7))\n");
        assert_eq!(on_a("(query)\n"), "(unsettled (visits 11))\n");
        assert_eq!(on_a("(rule 3 (no 4))\n"), "(accepted)\n");
        assert_eq!(on_a("(forget)\n"), "(forgotten)\n");
        assert_eq!(on_a("(card)\n"), format!("{A_CARD}(visits 11)\n(end)\n"));
        assert_eq!(on_a("(card 4)\n"), on_a("(card)\n"));
        assert_eq!(on_a("(card 3)\n"), "(refused 21 9 (visits 11))\n");
    }

    #[test]
    fn withdrawals() {
        let withdrawn = "(withdrawn)\n".repeat(3);
        assert_eq!(on_a("(withdraw)\n"), "(withdrawn)\n");
        assert_eq!(on_a(&"(withdraw)\n".repeat(4)), format!("{withdrawn}(refused 32 12)\n"));
        for line in ["(withdraw 1)", "(withdraw )", "(withdraw", "(withdrawn)", "(with-draw)"] {
            assert_eq!(on_a(&format!("{line}\n")), "(refused 1 9)\n", "{line}");
        }
    }

    #[test]
    fn keep_cards() {
        let keep = "(keep-card 1)\n(line (no 1) (no 2))\n(line 1 (no 2))\n";
        assert_eq!(on_a("(keep-card)\n"), format!("{keep}(visits 11)\n(end)\n"));
        assert_eq!(on_a("(keep-card 4)\n"), on_a("(keep-card)\n"));
        assert_eq!(on_a("(keep-card 3)\n"), "(refused 21 9 (visits 11))\n");
        let both = format!("{keep}(visits 11)\n(end)\n{A_CARD}(visits 9)\n(end)\n");
        assert_eq!(on_a("(keep-card)\n(card)\n"), both);
        let others = [
            "(keep-card 65537)",
            "(keep-card (no 4))",
            "(keep-card 4 4)",
            "(keep-card )",
            "(keep-card",
            "(keep card)",
            "(keepcard)",
            "(keep-)",
            "(-)",
        ];
        for line in others {
            assert_eq!(on_a(&format!("{line}\n")), "(refused 1 9)\n", "{line}");
        }
    }

    #[test]
    fn ceilings() {
        let card = |visits| format!("{A_CARD}(visits {visits})\n(end)\n");
        let stopped = |visits| format!("(refused 34 9 (visits {visits}))\n");
        let twice = |line: &str| on_a(&format!("{line}\n(card)\n"));
        assert_eq!(twice("(card (ceiling 10))"), stopped(10) + &card(9));
        assert_eq!(twice("(card 3 (ceiling 10))"), stopped(10) + &card(9));
        assert_eq!(twice("(card 4 (ceiling 0))"), stopped(0) + &card(11));
        assert_eq!(on_a("(card 4 (ceiling 11))\n"), card(11));
        assert_eq!(on_a("(card 3 (ceiling 11))\n"), "(refused 21 9 (visits 11))\n");
        assert_eq!(on_a("(keep-card (ceiling 10))\n"), stopped(10));
        assert_eq!(on_a("(keep-card 4 (ceiling 4294967295))\n"), on_a("(keep-card)\n"));
        assert_eq!(on_a("(query 1 (no 2) (ceiling 2))\n"), stopped(2));
        assert_eq!(on_a("(query 1 (no 2) (ceiling 3))\n"), "(keep (visits 3))\n");
        assert_eq!(on_a("(query (ceiling 0))\n"), stopped(0));
        assert_eq!(on_a("(query (no 2) (ceiling 6))\n"), stopped(6));
        assert_eq!(on_a("(query (no 2) (ceiling 7))\n"), "(keep (visits 7))\n");
        assert_eq!(on_a("(query 3 (ceiling 0))\n"), "(refused 8 9)\n");
        let lost = stopped(0) + "(refused 36 10)\n";
        assert_eq!(on_a("(card (ceiling 0))\n(page 1)\n"), lost);
        let others = [
            "(card (ceiling 4294967296))",
            "(card (ceiling 10000000000))",
            "(card (ceiling 99999999999999999999))",
            "(card (ceiling 00))",
            "(card (ceiling 01))",
            "(card (ceiling))",
            "(card (ceiling ))",
            "(card (ceiling +1))",
            "(card (ceiling -1))",
            "(card (ceiling 1)",
            "(card (ceiling 1",
            "(card (ceiling 1) )",
            "(card  (ceiling 1))",
            "(card (ceiling  1))",
            "(card (ceiling 1 ))",
            "(card (ceiling 1 1))",
            "(card (ceiling (no 1)))",
            "(card (ceiling 1)(ceiling 1))",
            "(card (ceiling 1) (ceiling 1))",
            "(card (ceiling 1) 4)",
            "(card ceiling 1)",
            "(card (Ceiling 1))",
            "(query (ceiling 1) 1)",
            "(rule 1 (ceiling 1))",
            "(withdraw (ceiling 1))",
            "(forget (ceiling 1))",
            "(write (ceiling 1))",
            "(write 200 (ceiling 1))",
            "(page 1 (ceiling 1))",
            "(ceiling 1)",
        ];
        for line in others {
            assert_eq!(on_a(&format!("{line}\n")), "(refused 1 9)\n", "{line}");
        }
    }

    /// What was stored before 21 is kept; a refused call changes nothing.
    #[test]
    fn state_goes_from_line_to_line() {
        let calls = "(card 3)\n(rule 5)\n\n(card 4)\n(forget)\n(card 4)\n";
        let expected = format!(
            "(refused 21 9 (visits 11))\n(refused 5 10)\n(refused 1 11)\n\
             {A_CARD}(visits 9)\n(end)\n(forgotten)\n{A_CARD}(visits 11)\n(end)\n"
        );
        assert_eq!(on_a(calls), expected);
    }

    #[test]
    fn refused_calls() {
        let refused = |number| format!("(refused {number} 9)\n");
        let other = [
            "",
            "(query (no 01))",
            "(query (no 1 2))",
            "(query (no))",
            "(query (off 1))",
            "(query 1(no 2))",
            "(query 01)",
            "(query 100000)",
            "(query )",
            "(query\r",
            "(query)\r",
            "(QUERY)",
            "(card 65537)",
            "(card 99999)",
            "(card 007)",
            "(card 00)",
            "(card (no 4))",
            "(card 4 4)",
            "(card 1",
            "(forget 1)",
            "(end)",
            "(book 1)",
            "(flags)",
            "(exists 1)",
            "(swap)",
            "()",
            "rule 1",
        ];
        for line in other {
            assert_eq!(on_a(&format!("{line}\n")), refused(1), "{line}");
        }
        let bad = ["0", "3", "41", "99999", "(no 0)", "(no 3)", "(no 41)", "(no 99999)"];
        for items in bad.iter().chain(&["1 1", "(no 2) (no 2)", "1 (no 1)", "(no 1) 2 1"]) {
            assert_eq!(on_a(&format!("(query {items})\n")), refused(8), "{items}");
        }
        let rules = [
            ("(rule)", 7),
            ("(rule 0)", 3),
            ("(rule 41)", 3),
            ("(rule 32768)", 3),
            ("(rule (no 32768))", 3),
            ("(rule 65537)", 3),
            ("(rule (no 99999))", 3),
            ("(rule 5)", 5),
            ("(rule 1 1)", 6),
        ];
        for (line, number) in rules {
            assert_eq!(on_a(&format!("{line}\n")), refused(number), "{line}");
        }
    }

    #[test]
    fn books_written_back() {
        let book = "(book 1)\n(flags 1 2)\n(exists 3)\n(forall 4)\n(rule (no 1) 3 4)\n\
                    (rule 2 (no 3) (no 4))\n(rule 1 2)\n(end)\n";
        let length = book.len();
        assert_eq!(on_a("(write)\n"), book);
        assert_eq!(on_a("(write 65536)\n"), book);
        assert_eq!(on_a(&format!("(write {length})\n")), book);
        assert_eq!(on_a(&format!("(write {})\n", length - 1)), "(refused 31 9)\n");
        assert_eq!(on_a("(write 0)\n"), "(refused 31 9)\n");
        let more = book.replace("(end)", "(rule 3)\n(end)");
        assert_eq!(on_a("(rule 3)\n(write)\n"), format!("(accepted)\n{more}"));
        for line in ["(write 65537)", "(write (no 1))", "(write 1 2)", "(write )", "(write 01)"] {
            assert_eq!(on_a(&format!("{line}\n")), "(refused 1 9)\n", "{line}");
        }
    }

    /// Page 1 of book A's card.
    fn a_page() -> String {
        let row = |text: &str| format!("{text:<71}\n");
        let head = row(&format!("CARD{:>67}", 1));
        head + &row("    1  01") + &row("    2  11") + &row("").repeat(21)
    }

    #[test]
    fn pages_of_the_card_answered_last() {
        let card = on_a("(card)\n");
        let page = a_page();
        assert_eq!(on_a("(page 1)\n"), "(refused 36 9)\n");
        assert_eq!(on_a("(card)\n(page 1)\n"), format!("{card}{page}"));
        let none = "(refused 36 10)\n(refused 36 11)\n(refused 36 12)\n";
        assert_eq!(on_a("(card)\n(page 0)\n(page 2)\n(page 99999)\n"), format!("{card}{none}"));
        let kept = "(query 1 1)\n(rule 5)\n(forget)\n(page 7)\n\n(page 1)\n(page 1)\n";
        let expected =
            "(refused 8 10)\n(refused 5 11)\n(forgotten)\n(refused 36 13)\n(refused 1 14)\n";
        assert_eq!(on_a(&format!("(card)\n{kept}")), format!("{card}{expected}{page}{page}"));
    }

    #[test]
    fn pages_of_the_keep_card() {
        let page = a_page().replace("  01", "  00").replace("  11", "  10");
        assert!(on_a("(card)\n(keep-card)\n(page 1)\n").ends_with(&page));
        assert!(on_a("(keep-card)\n(card)\n(page 1)\n").ends_with(&a_page()));
        let refused = "(withdrawn)\n".repeat(3);
        let calls = "(withdraw)\n".repeat(3) + "(keep-card)\n(withdraw)\n(page 1)\n";
        let none = a_page().replace("    1  01", "         ").replace("    2  11", "         ");
        let keep = "(keep-card 1)\n(visits 1)\n(end)\n(refused 32 13)\n";
        assert_eq!(on_a(&calls), format!("{refused}{keep}{none}"));
    }

    /// "a page never shows lines that no longer hold".
    #[test]
    fn pages_that_no_longer_hold() {
        let card = on_a("(card)\n");
        let lost = "(accepted)\n(refused 36 11)\n";
        assert_eq!(on_a("(card)\n(rule 1)\n(page 1)\n"), format!("{card}{lost}"));
        assert!(on_a("(card)\n(card 3)\n(page 1)\n").ends_with("(refused 36 11)\n"));
        let lost = "(withdrawn)\n(refused 36 11)\n";
        assert_eq!(on_a("(card)\n(withdraw)\n(page 1)\n"), format!("{card}{lost}"));
        assert!(on_a("(card)\n(keep-card 3)\n(page 1)\n").ends_with("(refused 36 11)\n"));
        for line in
            ["(page)", "(page (no 1))", "(page 1 1)", "(page 01)", "(page 100000)", "(page )"]
        {
            assert_eq!(on_a(&format!("{line}\n")), "(refused 1 9)\n", "{line}");
        }
    }

    #[test]
    fn last_line_without_its_byte_10() {
        assert_eq!(on_a("(forget)\n(forget)"), "(forgotten)\n(refused 1 10)\n");
        assert_eq!(on_a(&"x".repeat(LARGEST_LINE)), "(refused 1 9)\n");
        assert_eq!(on_a(&"x".repeat(LARGEST_LINE + 1)), "(refused 1 9)\n");
    }

    /// A line of a call: 65,536 bytes are read, one more is no call. Either way the next line is
    /// the next call.
    #[test]
    fn long_lines() {
        let query = |length: usize| {
            let items = " 1".repeat((length - 7) / 2);
            let line = format!("(query{items})\n(forget)\n");
            on_a(&line)
        };
        assert_eq!(query(LARGEST_LINE - 1), "(refused 8 9)\n(forgotten)\n");
        assert_eq!(query(LARGEST_LINE + 1), "(refused 1 9)\n(forgotten)\n");
        let items = " 1".repeat((LARGEST_LINE - 10) / 2) + " 10";
        let line = format!("(query{items})");
        assert_eq!(line.len(), LARGEST_LINE);
        assert_eq!(on_a(&format!("{line}\n(forget)\n")), "(refused 8 9)\n(forgotten)\n");
        assert_eq!(on_a(&format!("{line}x\n(forget)\n")), "(refused 1 9)\n(forgotten)\n");
        let longest = "x".repeat(3 * LARGEST_LINE);
        assert_eq!(on_a(&format!("{longest}\n(forget)\n")), "(refused 1 9)\n(forgotten)\n");
    }

    #[test]
    fn refused_books_end_the_session() {
        assert_eq!(answers(""), "(refused 1 1)\n");
        assert_eq!(answers("(book 3)\n(end)\n(forget)\n"), "(refused 2 1)\n");
        assert_eq!(answers("(book 1)\n(flags)\n(end)"), "(refused 1 3)\n");
        assert_eq!(answers("(book 1)\n(flags)\n(end)\r\n(forget)\n"), "(refused 1 3)\n");
        assert_eq!(answers("(end)\n(forget)\n"), "(refused 1 1)\n");
    }

    /// Only the book is bounded: calls may go far beyond 65,536 bytes.
    #[test]
    fn long_books() {
        let filled = |length: usize| "x".repeat(length - 7) + "\n(end)\n";
        assert_eq!(answers(filled(LARGEST_TEXT)), "(refused 1 1)\n");
        assert_eq!(answers(filled(LARGEST_TEXT + 1)), "(refused 9 0)\n");
        assert_eq!(answers("x".repeat(LARGEST_TEXT)), "(refused 1 1)\n");
        assert_eq!(answers("x".repeat(LARGEST_TEXT + 1)), "(refused 9 0)\n");
        let calls = "(forget)\n".repeat(10_000);
        assert_eq!(on_a(&calls), "(forgotten)\n".repeat(10_000));
    }
}

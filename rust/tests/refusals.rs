//! Refusals with their numbers; the book is as it was, and a search that ran keeps what it learned.

use bullacetop::{
    tag, tagged, untagged, Book, Limits, Refusal, Refused, Session, Tables, HIGHEST_CEILING,
};

const A: &[u8] = include_bytes!("../../examples/a.book");
const NUMBERS: [u16; 23] =
    [1, 2, 3, 4, 5, 6, 7, 8, 9, 20, 21, 22, 30, 31, 32, 33, 34, 35, 36, 37, 38, 39, 40];

fn book() -> Book {
    Book::open(A).unwrap()
}

/// Refused with this number, in so many visits; else what it says instead.
fn assert_refused<T>(answer: Result<T, Refused>, number: u16, visits: u64) {
    let told = answer.err().map(|refused| (refused.refusal.number(), refused.visits));
    assert_eq!(told, Some((number, visits)));
}

/// Where a text is refused, and with what.
fn fault(text: &str) -> (u16, usize) {
    let refused = Book::open(text.as_bytes()).unwrap_err();
    (refused.refusal.number(), refused.line)
}

#[test]
fn every_number_has_a_name_and_a_meaning() {
    for number in 0..=u16::MAX {
        let refusal = Refusal::of(number);
        assert_eq!(refusal.number(), number);
        assert_eq!(matches!(refusal, Refusal::Other(_)), !NUMBERS.contains(&number));
    }
    let refused = Book::open(b"").unwrap_err();
    let meaning = "refused with 1: not in the layout, or a line where it may not stand (line 1)";
    assert_eq!(refused.to_string(), meaning);
}

/// `NotInLayout` as `NOT_IN_LAYOUT`.
fn in_capitals(refusal: Refusal) -> String {
    let mut name = String::new();
    for letter in format!("{refusal:?}").chars() {
        if letter.is_uppercase() && !name.is_empty() {
            name.push('_');
        }
        name.push(letter.to_ascii_uppercase());
    }
    name
}

#[test]
fn the_header_has_the_same_numbers_and_names() {
    let header = include_str!("../../include/bullacetop.h");
    let from = header.find("/* Refusals; 0 is none. */").unwrap();
    let until = header.find("/* ---- the workspace */").unwrap();
    let defined = header[from..until].lines().filter(|line| line.starts_with('#'));
    // Behind each stands what it means.
    let there: Vec<&str> =
        defined.map(|line| line.split("/*").next().unwrap().trim_end()).collect();
    let define =
        |number| format!("#define BULLACETOP_{} {number}", in_capitals(Refusal::of(number)));
    assert_eq!(there, NUMBERS.map(define));
}

#[test]
fn texts() {
    assert_eq!(fault(""), (1, 1));
    assert_eq!(fault("(book 3)\n"), (2, 1));
    assert_eq!(fault("(book 1)\n(flags 41)\n(end)\n"), (3, 2));
    assert_eq!(fault("(book 1)\n(flags 1 1)\n(end)\n"), (4, 2));
    assert_eq!(fault("(book 1)\n(flags 1)\n(rule 2)\n(end)\n"), (5, 3));
    assert_eq!(fault("(book 1)\n(flags 1)\n(rule 1 1)\n(end)\n"), (6, 3));
    assert_eq!(fault("(book 1)\n(flags 1)\n(rule)\n(end)\n"), (7, 3));
    assert_eq!(fault(&"(".repeat(65_537)), (9, 0));
    assert_eq!(fault("(book 2)\n(flags 1)\n(rule (tag 0) 1)\n(end)\n"), (39, 3));
    let short = Book::open_qdimacs(b"p cnf 2 2\n1 2 0\n").unwrap_err();
    assert_eq!((short.refusal, short.line), (Refusal::ClauseCount, 3));
}

#[test]
fn conversions() {
    assert_refused(tagged(b"(book 2)\n(flags)\n(end)\n"), 2, 0);
    let lost = untagged(b"(book 2)\n(flags 1)\n(rule (tag 2) 1)\n(end)\n").unwrap_err();
    assert_eq!((lost.refusal, lost.line), (Refusal::TagLost, 3));
    let (mut cells, mut literals) = ([9; Limits::USUAL.cells()], [9; Limits::USUAL.literals()]);
    let mut tables = Tables { cells: &mut cells, literals: &mut literals };
    let mut table = [9; 20];
    assert_refused(tag(A, Limits::USUAL, tables.lend(), &mut table), 31, 0);
    assert_eq!(table, [0; 20]);
    // A cell too few for a book, whatever the text is.
    let short = Tables { cells: &mut tables.cells[1..], literals: tables.literals };
    assert_refused(tag(b"", Limits::USUAL, short, &mut table), 22, 0);
}

/// What a book answers and how much it takes to: with equal visits it has learned as much.
fn tells(book: &Book) -> (Vec<u8>, bullacetop::Lines) {
    (book.text().unwrap(), book.clone().card_lines(HIGHEST_CEILING).unwrap())
}

#[test]
fn calls_leave_the_book_as_it_was() {
    let mut book = book();
    book.query(&[1, 2], &[], HIGHEST_CEILING).unwrap();
    let before = tells(&book);
    let (mut table, mut text) = ([9; 8], [9; 22]);
    assert_refused(book.rule(&[]), 7, 0);
    assert_refused(book.rule(&[i16::MIN]), 3, 0);
    assert_refused(book.rule(&[1, 5]), 5, 0);
    assert_refused(book.rule(&[1, -1]), 6, 0);
    assert_refused(book.rule(&[1; 17]), 7, 0);
    assert_refused(book.one(&[1]), 7, 0);
    assert_refused(book.query(&[3], &[1, 2], HIGHEST_CEILING), 8, 0);
    assert_refused(book.query(&[1], &[1], HIGHEST_CEILING), 8, 0);
    assert_refused(book.query(&[1, 2], &[], 0), 34, 0);
    assert_refused(book.closest(&[1], &[], &mut table, HIGHEST_CEILING), 8, 0);
    assert_refused(book.write(&mut text), 31, 0);
    assert_eq!(text, [0; 22]);
    assert_eq!(tells(&book), before);
}

#[test]
fn a_search_that_ran_keeps_what_it_learned() {
    let mut learned = book();
    learned.card_lines(HIGHEST_CEILING).unwrap();
    let mut book = book();
    let mut table = [9; 3];
    assert_refused(book.card(&mut table, HIGHEST_CEILING), 21, 11);
    assert_eq!(table, [0; 3]);
    assert_eq!(tells(&book), tells(&learned));
    assert_refused(book.card(&mut [], HIGHEST_CEILING), 21, 9);
}

#[test]
fn the_last_rule_and_one_rule_too_many() {
    let mut book = book();
    for _ in 0..3 {
        book.withdraw().unwrap();
    }
    assert_refused(book.withdraw(), 32, 0);
    for _ in 0..255 {
        book.rule(&[1, 2]).unwrap();
    }
    assert_refused(book.rule(&[1, 2]), 20, 0);
    assert_refused(book.one(&[1, 2]), 20, 0);
    assert_eq!(book.rules(), 255);
}

#[test]
fn a_card_without_a_line_and_a_page_that_is_not_there() {
    let mut book = Book::open(b"(book 1)\n(flags 1)\n(rule 1)\n(rule (no 1))\n(end)\n").unwrap();
    let (mut table, mut out) = ([9; 8], [9; 2000]);
    assert_refused(book.closest(&[1], &[], &mut table, HIGHEST_CEILING), 35, 3);
    let card = book.card(&mut table, HIGHEST_CEILING).unwrap();
    assert!(card.is_empty() && card.pages() == 1 && card.line(0).is_none());
    assert!(card.page(1, &mut out).is_ok());
    for number in [0, 2, usize::MAX] {
        assert_refused(card.page(number, &mut out), 36, 0);
    }
    assert_refused(card.page(1, &mut out[..1727]), 31, 0);
}

#[test]
fn lines_of_a_session() {
    let mut session = Session::open(A).unwrap();
    assert_eq!(session.line(b"(page 1)"), b"(refused 36 9)\n");
    assert_eq!(session.line(b""), b"(refused 1 10)\n");
    assert_eq!(session.line(b"(card)\n"), b"(refused 1 11)\n");
    assert_eq!(session.line(&[b'('; 65_537]), b"(refused 1 12)\n");
    let last = Session::new(session.into_book(), u64::MAX).line(b"(rule)").to_vec();
    assert_eq!(last, b"(refused 7 18446744073709551615)\n");
}

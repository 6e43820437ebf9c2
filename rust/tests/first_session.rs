//! The README's first session: call by call, and line by line.

use bullacetop::{Book, Refusal, Refused, Session, Verdict, HIGHEST_CEILING, PAGE_BYTES};

const BOOK: &[u8] = include_bytes!("../../examples/a.book");

/// The page of the two lines, with the ends of its rows cut off and its blank rows left out.
const PAGE: [&str; 3] = [
    "CARD                                                                  1",
    "    1  01",
    "    2  11",
];

/// As it stands at the end: literals in place order, the added rules at the end.
const WRITTEN: &str = "(book 1)\n(flags 1 2)\n(exists 3)\n(forall 4)\n(rule (no 1) 3 4)\n\
    (rule 2 (no 3) (no 4))\n(rule 1 2)\n(rule 1)\n(rule 1 2)\n(rule (no 1) (no 2))\n(end)\n";

/// The rows of a page that are not blank.
fn rows(page: &[u8]) -> Vec<&str> {
    assert_eq!(page.len(), PAGE_BYTES);
    let text = std::str::from_utf8(page).unwrap();
    text.lines().map(str::trim_end).filter(|row| !row.is_empty()).collect()
}

#[test]
fn call_by_call() {
    let mut book = Book::open(BOOK).unwrap();
    let (mut table, mut page) = ([9; 8], [9; PAGE_BYTES]);

    let card = book.card(&mut table, HIGHEST_CEILING).unwrap();
    assert_eq!((card.len(), card.visits(), card.pages()), (2, 11, 1));
    assert_eq!(rows(card.page(1, &mut page).unwrap()), PAGE);
    let lines: Vec<_> = card.lines().map(|line| book.literals(line)).collect();
    assert_eq!(lines, [[-1, 2], [1, 2]]);

    let answer = book.query(&[1, 2], &[], HIGHEST_CEILING).unwrap();
    assert_eq!((answer.verdict, answer.visits), (Verdict::Swap, 3));
    let answer = book.query(&[], &[2], HIGHEST_CEILING).unwrap();
    assert_eq!((answer.verdict, answer.visits), (Verdict::Keep, 7));

    let closest = book.closest(&[1], &[2], &mut table, HIGHEST_CEILING).unwrap();
    assert_eq!(book.literals(closest.reading()), [1, 2]);
    assert_eq!((closest.differs, closest.card.len(), closest.card.visits()), (1, 2, 9));

    let stopped = book.keep_card(&mut table, 5).unwrap_err();
    assert_eq!(stopped, Refused { refusal: Refusal::Stopped, line: 0, visits: 5 });

    assert_eq!(book.rule(&[1]), Ok(()));
    assert_eq!(book.one(&[1, 2]), Ok(()));
    assert_eq!(book.forget(), Ok(()));
    assert_eq!(book.text().unwrap(), WRITTEN.as_bytes());
}

#[test]
fn line_by_line() {
    let mut session = Session::open(BOOK).unwrap();
    let mut says = |line: &str| String::from_utf8(session.line(line.as_bytes()).to_vec()).unwrap();
    assert_eq!(says("(card)"), include_str!("../../examples/a.card"));
    assert_eq!(rows(says("(page 1)").as_bytes()), PAGE);
    assert_eq!(says("(query 1 2)"), "(swap (visits 3))\n");
    assert_eq!(says("(query (no 2))"), "(keep (visits 7))\n");
    let closest = "(closest (reading 1 2) (differs 1) (lines 2) (visits 9))\n";
    assert_eq!(says("(closest 1 (no 2))"), closest);
    assert_eq!(says("(keep-card (ceiling 5))"), "(refused 34 14 (visits 5))\n");
    assert_eq!(says("(rule 1)"), "(accepted)\n");
    assert_eq!(says("(one 1 2)"), "(accepted)\n");
    assert_eq!(says("(forget)"), "(forgotten)\n");
    assert_eq!(says("(write)"), WRITTEN);
    assert_eq!(session.into_book().text().unwrap(), WRITTEN.as_bytes());
}

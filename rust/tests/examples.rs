//! The cards of the examples: by the calls, by a session's line, and as the program prints them.

use bullacetop::{
    printed, printed_under, tagged, untagged, Book, Limits, Lines, Session, HIGHEST_CEILING,
};
use std::fs;
use std::path::Path;

/// The text of a book and of its card.
fn examples() -> Vec<(Vec<u8>, String)> {
    let folder = Path::new(env!("CARGO_MANIFEST_DIR")).join("../examples");
    let paths = fs::read_dir(folder).unwrap().map(|entry| entry.unwrap().path());
    let books = paths.filter(|path| path.extension().is_some_and(|end| end == "book"));
    let read = |path: std::path::PathBuf| {
        (fs::read(&path).unwrap(), fs::read_to_string(path.with_extension("card")).unwrap())
    };
    let examples: Vec<_> = books.map(read).collect();
    assert_eq!(examples.len(), 4);
    examples
}

fn item(literal: &i16) -> String {
    match *literal {
        on @ 0.. => format!(" {on}"),
        off => format!(" (no {})", -off),
    }
}

/// A card as it is printed.
fn as_printed(card: &Lines) -> String {
    let line = |literals: &Vec<i16>| {
        let items: String = literals.iter().map(item).collect();
        format!("(line{items})\n")
    };
    let lines: String = card.lines.iter().map(line).collect();
    format!("(card 1)\n{lines}(visits {})\n(end)\n", card.visits)
}

#[test]
fn by_the_calls() {
    for (text, card) in examples() {
        let mut book = Book::open(&text).unwrap();
        assert_eq!(as_printed(&book.card_lines(HIGHEST_CEILING).unwrap()), card);
    }
}

#[test]
fn by_a_line_and_as_printed() {
    for (text, card) in examples() {
        assert_eq!(Session::open(&text).unwrap().line(b"(card)"), card.as_bytes());
        assert_eq!(printed(&text), card.as_bytes());
        assert_eq!(printed_under(Limits::HIGHEST, &text), card.as_bytes());
    }
}

#[test]
fn each_reading_lies_on_one_line_of_one_of_the_two_cards() {
    for (text, _) in examples() {
        let mut book = Book::open(&text).unwrap();
        let flags = book.flags().count() as u32;
        let swaps = book.card_lines(HIGHEST_CEILING).unwrap();
        let keeps = book.keep_card_lines(HIGHEST_CEILING).unwrap();
        let open = swaps.lines.iter().chain(&keeps.lines).map(|line| flags - line.len() as u32);
        assert_eq!(open.map(|open| 2_u64.pow(open)).sum::<u64>(), 2_u64.pow(flags));
    }
}

#[test]
fn in_both_editions_and_written_back() {
    for (text, card) in examples() {
        let converted = tagged(&text).unwrap();
        assert_eq!(untagged(&converted).unwrap(), text);
        let mut book = Book::open(&converted).unwrap();
        let written = book.text().unwrap();
        assert_eq!(Book::open(&written).unwrap().text().unwrap(), written);
        assert_eq!(as_printed(&book.card_lines(HIGHEST_CEILING).unwrap()), card);
    }
}

#[test]
fn a_book_that_comes_as_qdimacs() {
    let text = b"p cnf 4 3\ne 3 0\na 4 0\n3 4 -1 0\n-3 -4 2 0\n1 2 0\n";
    let mut book = Book::open_qdimacs(text).unwrap();
    let card = book.card_lines(HIGHEST_CEILING).unwrap();
    assert_eq!(as_printed(&card), include_str!("../../examples/a.card"));
}

//! Books under limits of their own, on the heap and in tables that the caller lends.

use bullacetop::{
    print, room, tag, tagged_under, untag, untagged_under, Book, LastCard, LentBook, Limits,
    Refusal, Refused, Session, Tables, Verdict, Workspace, HIGHEST_CEILING, PAGE_BYTES,
};
use std::fmt::Write;

const A: &[u8] = include_bytes!("../../examples/a.book");

/// Flags 1 and 2, and variables 3 to the last, each equal to the one before it; 3 is the `or` of the flags.
fn chain(last: usize) -> (String, Limits) {
    let mut text = String::from("(book 1)\n(flags 1 2)\n(exists");
    for number in 3..=last {
        write!(text, " {number}").unwrap();
    }
    text += ")\n(rule 1 2 (no 3))\n(rule (no 1) 3)\n(rule (no 2) 3)\n";
    for number in 4..=last {
        let before = number - 1;
        write!(text, "(rule {before} (no {number}))\n(rule (no {before}) {number})\n").unwrap();
    }
    write!(text, "(rule {last})\n(end)\n").unwrap();
    (text, Limits { numbers: last, rules: 2 * last - 2 })
}

fn refusal<T>(answer: Result<T, Refused>) -> Option<(Refusal, usize)> {
    answer.err().map(|refused| (refused.refusal, refused.line))
}

#[test]
fn a_chain_under_limits_that_just_hold_it() {
    for last in [4, 60, 400] {
        let (text, limits) = chain(last);
        let mut book = Book::open_under(limits, text.as_bytes()).unwrap();
        assert_eq!((book.limits(), book.rules()), (limits, limits.rules));
        let card = book.card_lines(HIGHEST_CEILING).unwrap();
        assert_eq!(card.lines, [vec![-1, 2], vec![1]]);
        assert_eq!(book.query(&[], &[1, 2], HIGHEST_CEILING).unwrap().verdict, Verdict::Keep);
        assert_eq!(refusal(book.rule(&[1])), Some((Refusal::RulesFull, 0)));
        assert_eq!(refusal(book.rule(&[last as i16 + 1])), Some((Refusal::RulesFull, 0)));
        book.withdraw().unwrap();
        assert_eq!(refusal(book.rule(&[last as i16 + 1])), Some((Refusal::NumberRange, 0)));
        book.rule(&[last as i16]).unwrap();
        assert_eq!(book.text().unwrap(), text.as_bytes());
        assert!(text.len() <= book.room());
    }
}

#[test]
fn one_number_or_one_rule_fewer() {
    let (text, limits) = chain(60);
    let few = Limits { numbers: 59, ..limits };
    assert_eq!(refusal(Book::open_under(few, text.as_bytes())), Some((Refusal::NumberRange, 3)));
    let few = Limits { rules: limits.rules - 1, ..limits };
    let line = text.lines().count() - 1;
    assert_eq!(refusal(Book::open_under(few, text.as_bytes())), Some((Refusal::RulesFull, line)));
    assert_eq!(refusal(Book::open(text.as_bytes())), Some((Refusal::NumberRange, 3)));
    assert_eq!(
        refusal(Session::open_under(few, text.as_bytes())),
        Some((Refusal::RulesFull, line))
    );
    assert_eq!(refusal(tagged_under(few, text.as_bytes())), Some((Refusal::RulesFull, line)));
    let tagged = tagged_under(limits, text.as_bytes()).unwrap();
    assert_eq!(untagged_under(limits, &tagged).unwrap(), text.as_bytes());
    assert_eq!(refusal(untagged_under(few, &tagged)), Some((Refusal::RulesFull, line)));
}

#[test]
fn limits_above_the_highest_are_those() {
    let book = Book::open_under(Limits { numbers: usize::MAX, rules: 9_999 }, A).unwrap();
    assert_eq!(book.limits(), Limits::HIGHEST);
    let none = Limits { numbers: 0, rules: 0 };
    let book = Book::open_under(none, b"(book 1)\n(flags)\n(end)\n").unwrap();
    assert_eq!((book.limits(), book.flags().count()), (none, 0));
}

#[test]
fn a_qdimacs_text_of_41_flags() {
    let text = b"p cnf 41 0\n";
    assert_eq!(refusal(Book::open_qdimacs(text)), Some((Refusal::NumberRange, 1)));
    let refused = Book::open_qdimacs_under(Limits { numbers: 41, rules: 0 }, text);
    assert_eq!(refusal(refused), Some((Refusal::TooManyFlags, 2)));
}

/// Every call in tables of just the lengths that the limits ask, on the stack; nothing here is on the heap but
/// the workspace and what a session answers.
#[test]
fn in_lent_tables() {
    const LIMITS: Limits = Limits { numbers: 4, rules: 6 };
    let (mut cells, mut literals) = ([7; LIMITS.cells()], [7; LIMITS.literals()]);
    let mut tables = Tables { cells: &mut cells, literals: &mut literals };
    let mut work = Workspace::boxed();
    let mut book = LentBook::open(A, LIMITS, tables.lend(), &mut work).unwrap();
    let (mut table, mut page) = ([9; 8], [9; PAGE_BYTES]);
    let card = book.card(&mut table, HIGHEST_CEILING).unwrap();
    assert_eq!((card.len(), card.visits()), (2, 11));
    assert!(card.page(1, &mut page).unwrap().starts_with(b"CARD  "));
    let lines: Vec<Vec<i16>> = card.lines().map(|line| book.literals(line).collect()).collect();
    assert_eq!(lines, [[-1, 2], [1, 2]]);
    let closest = book.closest(&[1], &[2], &mut table, HIGHEST_CEILING).unwrap();
    assert_eq!((closest.differs, book.literals(closest.reading()).collect()), (1, vec![1, 2]));
    assert_eq!(book.keep_card(&mut table, 5).unwrap_err().refusal, Refusal::Stopped);
    book.rule(&[1]).unwrap();
    book.one(&[1, 2]).unwrap();
    assert_eq!((book.rules(), refusal(book.rule(&[1]))), (6, Some((Refusal::RulesFull, 0))));
    book.forget().unwrap();

    // It stays in its tables.
    let mut book = LentBook::left_in(tables.lend(), &mut work);
    assert_eq!((book.flags().collect(), book.rules()), (vec![1, 2], 6));
    let mut cards = Box::new([0; 65_536]);
    let (mut last, mut out) = (LastCard::none(&mut cards), vec![0; room()]);
    assert_eq!(book.line(b"(query 1 2)", 9, &mut last, &mut out).unwrap(), b"(keep (visits 1))\n");
    assert_eq!(book.line(b"(page 1)", 10, &mut last, &mut out).unwrap(), b"(refused 36 10)\n");
    assert!(book.line(b"(card)", 11, &mut last, &mut out).unwrap().starts_with(b"(card 1)\n"));
    assert_eq!(book.line(b"(page 1)", 12, &mut last, &mut out).unwrap().len(), PAGE_BYTES);
    let short = out.len() - 1;
    let told = book.line(b"(rule 1)", 13, &mut last, &mut out[..short]);
    assert_eq!(refusal(told), Some((Refusal::TextTableTooShort, 0)));
    let mut text = [9; 200];
    assert!(
        book.room() > 0 && book.write(&mut text).unwrap().starts_with(b"(book 1)\n(flags 1 2)\n")
    );
    assert_eq!(refusal(book.write(&mut text[..9])), Some((Refusal::TextTableTooShort, 0)));

    assert!(tag(A, LIMITS, tables.lend(), &mut text).unwrap().starts_with(b"(book 2)\n"));
    assert_eq!(refusal(untag(A, LIMITS, tables.lend(), &mut text)), Some((Refusal::Edition, 1)));
    let printed = print(A, LIMITS, tables.lend(), &mut work, &mut out).unwrap();
    assert_eq!(printed, include_bytes!("../../examples/a.card"));
    let text = b"p cnf 4 3\ne 3 0\na 4 0\n3 4 -1 0\n-3 -4 2 0\n1 2 0\n";
    let mut book = LentBook::open_qdimacs(text, LIMITS, tables.lend(), &mut work).unwrap();
    assert_eq!(book.card(&mut table, HIGHEST_CEILING).unwrap().visits(), 11);
}

/// One cell or one literal too few; and whatever stands in tables, a call on them is answered.
#[test]
fn tables_that_hold_no_book() {
    const LIMITS: Limits = Limits { numbers: 4, rules: 6 };
    let (mut cells, mut literals) = (vec![0; LIMITS.cells()], vec![0; LIMITS.literals()]);
    let mut work = Workspace::boxed();
    let short = Tables { cells: &mut cells[1..], literals: &mut literals };
    let told = LentBook::open(A, LIMITS, short, &mut work);
    assert_eq!(refusal(told), Some((Refusal::Malformed, 0)));
    let short = Tables { cells: &mut cells, literals: &mut literals[1..] };
    let told = LentBook::open(A, LIMITS, short, &mut work);
    assert_eq!(refusal(told), Some((Refusal::Malformed, 0)));
    for fill in [0_u16, 1, 2, 40, 41, 1_000, 1_001, u16::MAX] {
        for length in [0, 1, 2, 3, 10, 575, 7_200] {
            let (mut cells, mut literals) = (vec![fill; length], vec![fill as i16; length]);
            let tables = Tables { cells: &mut cells, literals: &mut literals };
            let mut book = LentBook::left_in(tables, &mut work);
            let well_formed = book.forget().is_ok();
            // Under limits of 0 zeros are the empty book.
            assert_eq!(well_formed, fill == 0 && 200 < length, "{fill} {length}");
            let _ = (book.flags().count(), book.rules(), book.write(&mut [0; 9]).is_ok());
            let _ = book.card(&mut [0; 8], 9).is_ok();
        }
    }
}

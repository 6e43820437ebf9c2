//! Books as QDIMACS, read by the library and decided reading by reading by another solver, DepQBF.
//!
//! The standard calls unquantified variables outermost existentials. A reading gives each of them its
//! value, as unit clauses behind the book's own: then the two meanings are the same.

use compare::qdimacs::{by_place, lines};
use compare::random::Random;
use compare::{Call, Formula, Limits, Reading, Said, Subject};
use native::budget::Walk;
use native::generate::Shape;
use native::library::Native;
use native::run::seed;
use native::text::{open_qdimacs, Room};
use std::io::Write;
use std::process::{Command, Stdio};

const SHAPES: [Shape; 3] = [
    Shape { variables: (0, 6), clauses: (0, 8), literals: (1, 3), visits: 600, calls: 1 },
    Shape { variables: (4, 12), clauses: (4, 24), literals: (1, 4), visits: 4_000, calls: 1 },
    Shape { variables: (12, 40), clauses: (20, 120), literals: (2, 6), visits: 4_000, calls: 1 },
];

/// Whether the other solver finds a text true.
fn is_true(text: &str) -> bool {
    let mut solver = Command::new("depqbf")
        .stdin(Stdio::piped())
        .stdout(Stdio::null())
        .spawn()
        .expect("depqbf is not there: install Debian's package depqbf");
    let mut input = solver.stdin.take().expect("an open input");
    input.write_all(text.as_bytes()).expect("the solver reads");
    drop(input);
    match solver.wait().expect("the solver ends").code() {
        Some(10) => true,
        Some(20) => false,
        other => panic!("depqbf ends with {other:?} on\n{text}"),
    }
}

/// The book with a unit clause for each flag.
fn with_reading(book: &Formula, on: &[i16]) -> String {
    let mut whole = book.clone();
    for flag in 1..=book.free_count() as i16 {
        whole.clauses.push(vec![if on.contains(&flag) { flag } else { -flag }]);
    }
    lines(&whole, || false).join("\n") + "\n"
}

#[test]
fn single_readings() {
    let seed = seed();
    let random = &mut Random::new(seed ^ 0xDE9);
    let mut told = [0; 2];
    for index in 0..300 {
        let book = by_place(&SHAPES[index % 3].formula(&Limits::PAPER, Walk::Plain, random));
        let text = lines(&book, || random.one_in(3)).join("\n") + "\n";
        let opened =
            open_qdimacs(text.as_bytes(), &Room::of(&Limits::PAPER)).expect("the text is kept");
        assert_eq!((opened.refusal, opened.line), (0, 0), "{text}");
        let mut native = Native::new(opened.slices);
        for _ in 0..4 {
            let flags = 1..=book.free_count() as i16;
            let on: Vec<i16> = flags.filter(|_| random.one_in(2)).collect();
            let swap = match native.call(&Call::Query(Reading::full(&book, &on))).said {
                Said::Swap => true,
                Said::Keep => false,
                said => panic!("{said:?}"),
            };
            assert_eq!(swap, is_true(&with_reading(&book, &on)), "{on:?} of\n{text}");
            told[usize::from(swap)] += 1;
        }
    }
    println!("{} readings true, {} false", told[1], told[0]);
    assert!(told.iter().all(|count| *count > 100), "{told:?}");
}

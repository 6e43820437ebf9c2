//! Printed pages: the library against the independent implementation.

use compare::page::{lent, Card, ALL, BYTES};
use compare::{Call, Said, Subject};
use native::input::{draw, Source};
use native::library::Native;
use native::rounds::{pages, Counts};
use native::run::{rounds, seed, timed};
use native::text::page;

#[test]
fn random_pages() {
    let (seed, mut counts) = (seed(), Counts::default());
    rounds(20_000, |index| {
        pages::round(seed, index, &mut counts).unwrap_or_else(|error| panic!("{error}"));
    });
    println!("{counts}");
    let many = [31, 36].iter().all(|refusal| counts.refusals.get(refusal) > Some(&1_000));
    assert!(timed() || many, "{counts}");
}

/// The comparison can fail: each slip of a page is told apart on one of these inputs.
#[test]
fn every_slip_is_told_apart() {
    let seed = seed();
    for (slip, words) in ALL {
        let differs = |index: u64| {
            let asked = pages::drawn(seed, index);
            asked.found().expect("guards") != asked.expected(Some(*slip))
        };
        assert!((0..20_000).any(differs), "{slip:?}: {words}");
    }
}

/// Pages of the cards that the library makes: each can be printed, and the lines are those of the card.
#[test]
fn pages_of_cards() {
    let seed = seed();
    let mut printed = 0;
    for index in 0..300 {
        let case = draw(Source::Opened, seed, index).case;
        let mut native = Native::new(case.slices.clone());
        let Some(state) = case.slices.read() else { continue };
        let answer = native.call(&Call::Card(4_096));
        let Said::Lines(lines) = answer.said else { continue };
        let card = Card { table: &answer.table, lines, flags: state.formula.free_count() };
        for number in 1..=card.pages(None) {
            let found = page(&card, number, BYTES).expect("guards");
            assert_eq!(found.0, 0, "{card:?} {number}");
            assert!(found == lent(&card, number, BYTES, None), "{card:?} {number}");
            printed += 1;
        }
    }
    println!("{printed} pages");
    assert!(printed > 100);
}

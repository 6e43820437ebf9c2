//! Calls at the places of a day, by random days.

use compare::day::{DaySlip, ALL};
use native::rounds::days::{self, drawn, round, AtPlaces};
use native::rounds::Counts;
use native::run::{rounds, seed, timed};

/// Slips that only the program can show.
const OF_THE_PROGRAM: [DaySlip; 5] = [
    DaySlip::PlaceGivenAgain,
    DaySlip::LimitsLost,
    DaySlip::TextNotSkipped,
    DaySlip::LinesOfTheText,
    DaySlip::CardOfAnotherPlace,
];

/// The compiled calls.
fn subject() -> impl AtPlaces {
    native::day::Exports
}

/// Texts opened at places of days that begin.
#[test]
fn openings() {
    let (seed, mut counts) = (seed(), Counts::default());
    rounds(300, |index| {
        let opened = days::openings(&mut subject(), seed, index, &mut counts);
        opened.unwrap_or_else(|error| panic!("{error}"));
    });
    println!("{counts}");
    assert!(timed() || counts.has(&[1, 3, 20, 22, 38]), "{counts}");
}

#[test]
fn random_days() {
    let (seed, mut counts) = (seed(), Counts::default());
    rounds(2_000, |index| {
        round(&mut subject(), seed, index, &mut counts).unwrap_or_else(|error| panic!("{error}"));
    });
    println!("{counts}");
    assert!(timed() || counts.has(&[8, 21, 22, 31, 34, 35, 37, 38]), "{counts}");
}

/// The comparison can fail: each slip is told apart on one of these days.
#[test]
fn every_slip_is_told_apart() {
    let seed = seed();
    for (slip, words) in ALL.iter().filter(|(slip, _)| !OF_THE_PROGRAM.contains(slip)) {
        let differs = |index| {
            drawn(seed, index).held(&mut subject(), Some(*slip), &mut Counts::default()).is_err()
        };
        assert!((0..4_000).any(differs), "{slip:?}: {words}");
    }
}

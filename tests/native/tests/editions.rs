//! Texts converted between the editions: the library against the independent implementation.

use compare::cases::{self, Program};
use compare::editions::{EditionSlip, ALL};
use compare::text::LARGEST_TEXT;
use native::rounds::editions::{drawn, round, Drawn, To};
use native::rounds::{shown, Counts};
use native::run::{rounds, seed, timed};

/// .. and back again, where they are not refused.
#[test]
fn random_texts() {
    let (seed, mut counts) = (seed(), Counts::default());
    rounds(6_000, |index| {
        round(seed, index, &mut counts).unwrap_or_else(|error| panic!("{error}"));
    });
    println!("{counts}");
    assert!(timed() || counts.has(&[1, 2, 3, 4, 5, 6, 7, 20, 31, 39, 40]), "{counts}");
}

/// The comparison can fail: each slip is told apart on one of these inputs.
#[test]
fn every_slip_is_told_apart() {
    let seed = seed();
    for (slip, words) in ALL {
        let differs = |index: u64| {
            let drawn = drawn(seed, index);
            drawn.held(drawn.size(index), Some(*slip)).is_err()
        };
        let of_rules = matches!(slip, EditionSlip::PairsBySecond | EditionSlip::OneSideNegated);
        assert!(of_rules || (0..40_000).any(differs), "{slip:?}: {words}");
    }
}

/// What the programs print, made by the library's calls, under the limits of their arguments.
#[test]
fn stored_texts() {
    for (program, to) in [(Program::Tag, To::Second), (Program::Untag, To::First)] {
        let stored = [cases::stored(program), cases::limited(program)];
        for case in stored.map(|cases| cases.expect("cases can be read")).concat() {
            let Some(limits) = case.given(None) else { continue };
            let drawn = Drawn { to, text: case.input, limits };
            let (told, table) = drawn.found(LARGEST_TEXT).expect("only the table changes");
            let printed = match told.refusal {
                0 => table[..told.length].to_vec(),
                number => format!("(refused {number} {})\n", told.line).into_bytes(),
            };
            assert!(printed == case.expected, "{}: {}", case.name, shown(&printed));
        }
    }
}

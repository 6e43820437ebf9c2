//! Books that come as QDIMACS: the library against the independent implementation.

use compare::cases::{self, Program};
use compare::limits::LimitSlip;
use compare::qdimacs::ALL;
use compare::{write, Call, Limits, Said, HIGHEST_CEILING};
use native::library::Native;
use native::rounds::qdimacs::{self, Slips};
use native::rounds::{shown, Counts};
use native::run::{rounds, seed, timed};
use native::text::{open_qdimacs, Room};

#[test]
fn random_texts() {
    let (seed, mut counts) = (seed(), Counts::default());
    rounds(8_000, |index| {
        qdimacs::round(seed, index, &mut counts).unwrap_or_else(|error| panic!("{error}"));
    });
    println!("{counts}");
    assert!(timed() || counts.has(&[1, 3, 4, 5, 6, 7, 9, 20, 30, 33]), "{counts}");
}

const OF_LIMITS: [LimitSlip; 8] = [
    LimitSlip::NumbersByTheCap,
    LimitSlip::RulesByTheCap,
    LimitSlip::NumbersByThePaper,
    LimitSlip::RulesByThePaper,
    LimitSlip::FlagsNotCounted,
    LimitSlip::HeaderCountsFlags,
    LimitSlip::FlagsAtFirstClause,
    LimitSlip::FlagsAfterCount,
];

/// The comparison can fail: each slip is told apart on one of these inputs.
#[test]
fn every_slip_is_told_apart() {
    let seed = seed();
    let told_apart = |slips: Slips| {
        (0..20_000).any(|index| {
            let (text, limits) = qdimacs::drawn(seed, index);
            qdimacs::held(&text, limits, slips).is_err()
        })
    };
    for (slip, words) in ALL {
        let slips = Slips { of_text: Some(*slip), ..Slips::default() };
        assert!(told_apart(slips), "{slip:?}: {words}");
    }
    for slip in OF_LIMITS {
        let slips = Slips { of_limits: Some(slip), ..Slips::default() };
        assert!(told_apart(slips), "{slip:?}");
    }
}

/// What the program prints, made by the library's two calls, under the limits of its arguments.
#[test]
fn stored_texts() {
    let stored = [cases::stored(Program::Qdimacs), cases::limited(Program::Qdimacs)];
    for case in stored.map(|cases| cases.expect("cases can be read")).concat() {
        let Some((numbers, rules)) = case.given(None) else { continue };
        let room = Room::of(&Limits::own(numbers, rules));
        let opened = open_qdimacs(&case.input, &room).expect("the text is kept");
        let printed = match opened.refusal {
            0 => {
                let call = Call::Write(write::WHOLE);
                let answer =
                    Native::new(opened.slices).answer(&call, HIGHEST_CEILING).expect("an answer");
                let Said::Written(length) = answer.said else { panic!("{answer}") };
                answer.table[..length].to_vec()
            }
            number => format!("(refused {number} {})\n", opened.line).into_bytes(),
        };
        assert!(printed == case.expected, "{}: {}", case.name, shown(&printed));
    }
}

//! Drawn inputs of the programs: what they cover, and that each slip of own limits and of a day shows on them.

use compare::cases::{Program, StoredCase};
use compare::draw::inputs::draw;
use compare::draw::on_a_large_stack;
use compare::limits::ALL;
use compare::random::Random;
use compare::Options;
use std::collections::BTreeMap;

/// The refusals that come, each of them often.
#[test]
fn inputs_are_refused_in_every_way() {
    let mut seen = BTreeMap::<String, u32>::new();
    on_a_large_stack(|| {
        let mut random = Random::new(20_271);
        for index in 0..1_400 {
            let case = draw(Program::ALL[index % Program::ALL.len()], &mut random);
            let printed = case.printed(&Options::paper());
            for line in String::from_utf8_lossy(&printed).lines() {
                let words: Vec<&str> = line.split([' ', ')']).collect();
                let word = match words[..] {
                    ["(refused", number, ..] => number,
                    [word, ..] => word,
                    [] => "",
                };
                *seen.entry(word.into()).or_default() += 1;
            }
        }
    });
    println!("{seen:?}");
    let often = ["1", "3", "4", "5", "6", "7", "8", "20", "21", "30", "32", "33", "34", "36", "37"];
    let more = ["38", "39", "40", "usage:", "(card", "(keep-card", "(closest", "(swap", "(book"];
    let few: Vec<_> =
        often.iter().chain(&more).filter(|word| seen.get(**word).is_none_or(|n| *n < 4)).collect();
    assert!(few.is_empty(), "{few:?}: {seen:?}");
}

#[test]
fn every_slip_of_limits_shows() {
    let programs = Program::LIMITED;
    on_a_large_stack(|| {
        let mut random = Random::new(20_272);
        let drawn = |index: usize| {
            let case = draw(programs[index % programs.len()], &mut random);
            let printed = case.printed(&Options::paper());
            (case, printed)
        };
        let drawn: Vec<_> = (0..720).map(drawn).collect();
        for (slip, words) in ALL.iter().filter(|(slip, _)| !slip.is_of_states()) {
            let slipped = Options { of_limits: Some(*slip), ..Options::paper() };
            let differs = |case: &(StoredCase, Vec<u8>)| case.0.printed(&slipped) != case.1;
            let index = drawn.iter().position(differs);
            println!("{slip:?}: {index:?}");
            assert!(index.is_some(), "{slip:?}: {words}");
        }
    });
}

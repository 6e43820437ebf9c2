//! Paper 02, wish 8: own limits as arguments, states in two slices, and that every slip of limits shows.

use compare::cases::Program;
use compare::draw::states::{options, well_formed, with_fault, Drawn, Fault, FAULTS};
use compare::draw::{ceiling, under_ceilings};
use compare::limits::{arguments, usage, LimitSlip, ALL};
use compare::random::Random;
use compare::slices::{Cells, Rows, Slices};
use compare::slips::{stored, AnySlip, Witness};
use compare::{check, Answer, Call, Limits, Options, Said, Solver, Subject, HIGHEST_CEILING};

fn given(words: &str) -> Option<(usize, usize)> {
    let words: Vec<String> = words.split_terminator(' ').map(str::to_owned).collect();
    arguments(&words, None)
}

/// "two optional arguments .. They have digits as in a text."
#[test]
fn arguments_of_the_programs() {
    assert_eq!(given(""), Some((40, 255)));
    assert_eq!(given("1000 4000"), Some((1_000, 4_000)));
    assert_eq!(given("0 99999"), Some((0, 99_999)));
    let others = ["40", "40 255 1", "040 255", "40 0255", "+40 255", "40 -1", "100000 1", "40 x"];
    for words in others {
        assert_eq!(given(words), None, "{words}");
    }
    assert_eq!(arguments(&["40".into(), String::new()], None), None);
    for program in Program::LIMITED {
        let usage = usage(program);
        assert!(usage.starts_with("usage:") && usage.ends_with('\n') && usage.lines().count() == 1);
    }
}

/// "stored entries to 1,000 literals": their parts are as wide as the limit for numbers.
#[test]
fn lengths_of_the_slices() {
    let lengths = |numbers, rules| {
        let limits = Limits::own(numbers, rules);
        (Cells::of(&limits).count, Rows::of(&limits, None).count)
    };
    assert_eq!(lengths(0, 0), (2 + 3 + 1 + 129 + 65, 0));
    assert_eq!(lengths(40, 255), (2 + 3 * 41 + 256 + 129 + 65, 255 * 16 + 128 * 40));
    assert_eq!(lengths(1_000, 4_000), (2 + 3 * 1_001 + 4_001 + 129 + 65, 4_000 * 16 + 128_000));
}

/// A state is answered in its slices as it is in lists, and no cell outside its counts is written.
#[test]
fn well_formed_states() {
    let mut random = Random::new(20_251);
    for _ in 0..2_000 {
        let Drawn { mut slices, calls } = well_formed(&mut random);
        let state = slices.read_well_formed().expect("a well-formed state");
        let options = options(&slices).expect("limits");
        let mut solver = Solver::new(state, options);
        for (call, ceiling) in under_ceilings(&calls, solver.clone(), 2_000, &mut random) {
            let before = slices.clone();
            let (answer, expected) =
                (slices.call_within(&call, ceiling), solver.call_within(&call, ceiling));
            assert_eq!(answer, expected, "{call}");
            assert_eq!(slices.read_well_formed().as_ref(), Some(&solver.state), "{call}");
            let refused = matches!(answer.said, Said::Refused(_));
            if refused && answer.visits == 0 || matches!(call, Call::Write(_)) {
                assert_eq!(slices, before, "{call}");
            }
            assert_eq!(slices.cells[..2], before.cells[..2]);
            assert_eq!(slices.cells.len(), before.cells.len());
            assert_eq!(slices.literals.len(), before.literals.len());
        }
    }
}

/// "a state with higher ones is 22", and so are more rules, higher numbers, a 41st flag, and slices too short.
#[test]
fn states_with_a_fault() {
    let mut random = Random::new(20_252);
    let mut others = 0;
    for attempt in 0..2_000 {
        let fault = FAULTS[attempt % FAULTS.len()];
        let Drawn { mut slices, calls } = with_fault(fault, &mut random);
        if fault == Fault::AnyCell && slices.read_well_formed().is_some() {
            others += 1;
            continue;
        }
        let before = slices.clone();
        for call in calls.iter().chain(&[Call::Forget, Call::Withdraw, Call::Card(3)]) {
            let said = Said::Refused(22);
            let refused = Answer { said, table: vec![0; call.table()], visits: 0 };
            assert_eq!(slices.call_within(call, ceiling(9, &mut random)), refused, "{fault:?}");
            assert_eq!(slices, before, "{fault:?}");
        }
    }
    assert!(others < 230, "{others} cells were no fault");
}

/// Each of the named faults is 22 only because of it: the same state without it is well formed.
#[test]
fn limits_at_the_caps() {
    let state = Default::default();
    for (numbers, rules, well) in
        [(1_000, 4_000, true), (1_001, 4_000, false), (1_000, 4_001, false), (0, 0, true)]
    {
        let limits = Limits { numbers, clauses: rules, ..Limits::HIGHEST };
        let mut slices = Slices::written(&state, &limits, || 0);
        assert_eq!(slices.call(&Call::Forget).said == Said::Forgotten, well);
        slices.cells.push(0);
        slices.literals.push(0);
        assert_eq!(slices.call(&Call::Forget).said == Said::Forgotten, well);
        slices.cells.truncate(Cells::of(&limits).count - 1);
        assert_eq!(slices.call(&Call::Forget).said, Said::Refused(22));
    }
    for cells in [vec![], vec![40], vec![40, 255]] {
        let mut slices = Slices { cells, literals: vec![], slip: None };
        assert_eq!(slices.call(&Call::Forget).said, Said::Refused(22));
    }
}

/// Whether a slip of states changes an answer or a cell of a drawn state.
fn shows(slip: LimitSlip, attempt: usize, random: &mut Random) -> bool {
    let fault = FAULTS[attempt / 2 % FAULTS.len()];
    let Drawn { mut slices, calls } = match attempt % 2 {
        0 => well_formed(random),
        _ => with_fault(fault, random),
    };
    let mut slipped = Slices { slip: Some(slip), ..slices.clone() };
    // A search on a malformed state means nothing.
    let calls = match slices.read_well_formed() {
        Some(_) => calls,
        None => vec![Call::Forget],
    };
    calls.iter().chain(&[Call::Forget]).any(|call| {
        let differ = slices.call_within(call, 500) != slipped.call_within(call, 500);
        differ || slices.cells != slipped.cells || slices.literals != slipped.literals
    })
}

#[test]
fn every_slip_of_states_shows() {
    for (slip, words) in ALL.iter().filter(|(slip, _)| slip.is_of_states()) {
        let mut random = Random::new(3);
        let shown = (0..4_000).any(|attempt| shows(*slip, attempt, &mut random));
        assert!(shown, "{slip:?}: {words}");
    }
}

#[test]
fn every_other_slip_shows_in_a_stored_case() {
    let stored = stored().expect("cases can be read");
    for (slip, words) in ALL.iter().filter(|(slip, _)| !slip.is_of_states()) {
        let slip = AnySlip::Limit(*slip);
        let witness = slip.witness(&stored);
        assert!(matches!(witness, Witness::Case(..)), "{slip:?}: {words}");
    }
}

/// The parts of the check that only own limits need.
#[test]
fn states_of_lists() {
    let high = Limits { numbers: 1_001, ..Limits::HIGHEST };
    for (slip, malformed) in [(None, true), (Some(LimitSlip::LimitsNotJudged), false)] {
        let options = Options { of_limits: slip, ..Options::with(high) };
        assert_eq!(check::malformed(&Default::default(), &options), malformed);
    }
    let mut solver = Solver::opened(Default::default(), Options::with(Limits::own(0, 0)));
    assert_eq!(solver.call_within(&Call::Card(0), HIGHEST_CEILING).said, Said::Lines(1));
}

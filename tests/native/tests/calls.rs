//! Random inputs of every source. `NATIVE_SEED` sets the seed, `NATIVE_SECONDS` a time for each
//! test in place of the usual number of inputs.

use native::input::Source;
use native::run::{amount, run, seed, timed};
use native::spoil::FAULTS;
use native::tally::Tally;

/// What the usual run covered; a timed one is held to nothing but agreement.
fn covered(source: Source, inputs: u64) -> Option<Tally> {
    let tally = run(source, seed(), 0, amount(inputs));
    println!("{source:?}: {tally}");
    (!timed()).then_some(tally)
}

#[test]
fn opened_formulas() {
    let Some(tally) = covered(Source::Opened, 6_000) else { return };
    let numbers = [3, 5, 6, 7, 8, 20, 21, 31, 32, 35];
    assert!(numbers.iter().all(|number| tally.refusals.get(number) > Some(&50)), "{tally}");
    assert_eq!((tally.most_variables, tally.longest_clause), (40, 16), "{tally}");
    assert!(tally.most_clauses > 255 && tally.own_limits > 2_000, "{tally}");
    assert!(tally.truths > 1_000 && tally.swaps > 100 && tally.keeps > 100, "{tally}");
    assert!(tally.written > 1_000 && tally.withdrawals > 1_000, "{tally}");
    assert!(tally.unsettled > 100 && tally.open > 300, "{tally}");
    assert!(tally.closest > 200 && tally.differing > 100, "{tally}");
}

/// Lists of some hundred calls.
#[test]
fn long_lists() {
    let Some(tally) = covered(Source::Long, 200) else { return };
    let numbers = [3, 5, 6, 7, 8, 20, 21, 31, 32, 34, 35];
    assert!(numbers.iter().all(|number| tally.refusals.get(number) > Some(&10)), "{tally}");
    assert!(tally.asked.len() == 9 && tally.calls() > 30_000, "{tally}");
}

#[test]
fn full_stores() {
    let Some(tally) = covered(Source::Filling, 300) else { return };
    assert!(tally.filled.iter().all(|calls| *calls > 20), "{tally}");
}

#[test]
fn tables_of_every_length() {
    let Some(tally) = covered(Source::Lengths, 800) else { return };
    assert!(tally.tables_of_no_byte > 400 && tally.tables_with_a_tail > 2_000, "{tally}");
    assert!(tally.refusals.get(&21) > Some(&2_000), "{tally}");
}

#[test]
fn given_stores() {
    let Some(tally) = covered(Source::GivenStore, 5_000) else { return };
    assert!(tally.filled.iter().all(|calls| *calls > 10), "{tally}");
}

#[test]
fn malformed_states() {
    let Some(tally) = covered(Source::Malformed, 150 * FAULTS.len() as u64) else { return };
    assert_eq!(tally.faults.len(), FAULTS.len(), "{tally}");
    assert!(tally.faults.values().all(|[malformed, _]| *malformed > 25), "{tally}");
}

/// Calls under ceilings near what they need, on opened, given and malformed states.
#[test]
fn ceilings() {
    let Some(tally) = covered(Source::Ceilings, 1_600) else { return };
    assert!(tally.refusals.get(&34) > Some(&3_000), "{tally}");
    assert!([8, 21, 22].iter().all(|number| tally.refusals.get(number) > Some(&50)), "{tally}");
    assert!(tally.exact > 1_500 && tally.one_short > 1_500, "{tally}");
    assert!(tally.filled.iter().all(|calls| *calls > 10), "{tally}");
}

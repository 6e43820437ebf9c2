//! The comparison can fail: with a slip in the independent implementation it disagrees with the
//! library on one of the inputs, for each slip that calls can show.

use compare::bounded::{self, CeilingSlip};
use compare::check::Check;
use compare::slip::{Slip, ALL};
use compare::Call;
use native::hold::{hold_with, Slips};
use native::input::{draw, Source};
use native::run::seed;
use native::tally::Tally;

/// Slips of the check show on malformed states, a few others on stores that no calls need reach,
/// all others on freshly opened formulas.
fn sources(slip: Slip) -> &'static [Source] {
    match slip {
        Slip::NewestCubeFirst => &[Source::GivenStore],
        _ if slip.needs_given_store() => &[Source::GivenStore],
        _ if slip.is_of_check() => &[Source::Malformed],
        _ => &[Source::Opened, Source::Filling],
    }
}

/// A count past its table is no list of this implementation: there is no run to slip. The library
/// is held to 22 on each of them by `malformed_states`.
const COUNTS: [Slip; 3] = [
    Slip::CheckOmits(Check::ClauseCount),
    Slip::CheckOmits(Check::ClauseTooLong),
    Slip::CheckOmits(Check::EntryCount),
];

/// Whether the library and the slipped implementation disagree on an input.
fn told_apart(slip: Slip, source: Source, seed: u64, index: u64) -> bool {
    let mut case = draw(source, seed, index).case;
    case.opened = false;
    if matches!(slip, Slip::CheckOmits(_)) {
        // A search on a malformed state means nothing.
        case.calls.retain(|asked| asked.call == Call::Forget);
    }
    let slips = Slips { call: Some(slip), ..Slips::default() };
    hold_with(&case, slips, &mut Tally::default()).is_err()
}

/// How many inputs of a source are tried for a slip: most show within a few hundred.
const INPUTS: u64 = 8_000;

#[test]
fn every_slip_is_told_apart() {
    let seed = seed();
    let mut hidden = vec![];
    let shown_by_calls = |slip: &Slip| !COUNTS.contains(slip) && !slip.is_hidden();
    for (slip, words) in ALL.iter().filter(|(slip, _)| shown_by_calls(slip)) {
        let indices = (0..INPUTS).flat_map(|index| sources(*slip).iter().map(move |s| (*s, index)));
        let mut indices =
            indices.filter(|(source, index)| told_apart(*slip, *source, seed, *index));
        match indices.next() {
            Some((source, index)) => println!("{slip:?}: {source:?} {index}"),
            None => hidden.push((slip, words)),
        }
    }
    assert!(hidden.is_empty(), "{hidden:#?}");
}

/// Every slip of a ceiling but those of a book's own limits, which no call has.
#[test]
fn every_slip_of_a_ceiling_is_told_apart() {
    let seed = seed();
    let of_limits = [CeilingSlip::NumbersNotCapped, CeilingSlip::RulesNotCapped];
    for (slip, words) in bounded::ALL.iter().filter(|(slip, _)| !of_limits.contains(slip)) {
        let differs = |index: &u64| {
            let mut case = draw(Source::Ceilings, seed, *index).case;
            case.opened = false;
            let slips = Slips { ceiling: Some(*slip), ..Slips::default() };
            hold_with(&case, slips, &mut Tally::default()).is_err()
        };
        let index = (0..INPUTS).find(differs);
        println!("{slip:?}: {index:?}");
        assert!(index.is_some(), "{slip:?}: {words}");
    }
}

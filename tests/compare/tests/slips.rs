//! Every slip is shown by a case that the finder finds.

use compare::finder::{find, Difference, Effort, Source};
use compare::slip::{Slip, ALL};

fn effort(tries: usize) -> Effort {
    Effort { tries, hits: 1 }
}

/// Where a slip shows.
fn source(slip: Slip) -> Source {
    match slip {
        _ if slip.needs_given_store() => Source::GivenStore,
        _ if slip.is_of_check() => Source::Malformed,
        _ => Source::Opened,
    }
}

#[test]
fn every_slip_is_shown() {
    let unseen = |slip: Slip| {
        let found = find(slip, Difference::Answer, source(slip), 1, effort(300_000));
        found.is_none()
    };
    let shown = ALL.iter().filter(|(slip, _)| !slip.is_hidden());
    let unseen: Vec<_> = shown.filter(|(slip, _)| unseen(*slip)).collect();
    assert!(unseen.is_empty(), "{unseen:#?}");
}

/// No call shows which dead clause the finder takes where they end at different places.
#[test]
fn the_finder_stays_hidden() {
    for (slip, words) in ALL.iter().filter(|(slip, _)| slip.is_hidden()) {
        for source in [Source::Opened, Source::GivenStore] {
            let found = find(*slip, Difference::Answer, source, 1, effort(30_000));
            assert!(found.is_none(), "{slip:?}: {words}");
        }
    }
}

#[test]
fn sound_slips_stay_hidden_on_opened_formulas() {
    for (slip, words) in ALL {
        if source(*slip) == Source::GivenStore {
            let found = find(*slip, Difference::Answer, Source::Opened, 1, effort(30_000));
            assert!(found.is_none(), "{slip:?}: {words}");
        }
    }
}

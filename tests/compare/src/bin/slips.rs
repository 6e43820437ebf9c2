//! Prints, for every slip that calls can show, the smallest case found that shows it.
//!
//! `slips table` prints the table of all slips, `tests/SLIPS.md`: a witness that the table names already stays where it
//! still shows its slip.
//!
//! `slips [SEED [TRIES [HITS]]]`. A freshly opened formula is searched first, a given well-formed state
//! only where no list of calls on an opened one shows the slip. Where the smallest case differs
//! in visits alone, a second search looks for a wrong reply on an opened formula.

use compare::finder::{find, print, Case, Difference, Effort, Source};
use compare::slip::{Slip, ALL};
use compare::slips;
use std::fs;

const TABLE: &str = concat!(env!("CARGO_MANIFEST_DIR"), "/../SLIPS.md");

struct Finder {
    seed: u64,
    effort: Effort,
}

fn main() {
    if std::env::args().nth(1).as_deref() == Some("table") {
        print!("{}", slips::renewed(&fs::read_to_string(TABLE).unwrap_or_default()));
        return;
    }
    let mut arguments = std::env::args().skip(1).map(|argument| argument.parse());
    let mut next = |usual| arguments.next().and_then(Result::ok).unwrap_or(usual);
    let seed = next(1);
    let effort = Effort { tries: next(300_000) as usize, hits: next(300) as usize };
    println!("seed {seed}, up to {} random cases for each slip\n", effort.tries);
    let finder = Finder { seed, effort };
    for (slip, words) in ALL.iter().filter(|(slip, _)| !slip.is_hidden()) {
        println!("{slip:?}: {words}");
        finder.report(*slip);
        println!();
    }
}

impl Finder {
    fn report(&self, slip: Slip) {
        if slip.is_of_check() {
            self.show(slip, Difference::Answer, Source::Malformed);
        } else if let Some(case) = self.show(slip, Difference::Answer, Source::Opened) {
            if !case.differs(slip, Difference::Reply) {
                println!("  and with a wrong reply:");
                self.show(slip, Difference::Reply, Source::Opened);
            }
        } else {
            println!("  so on a given store:");
            self.show(slip, Difference::Answer, Source::GivenStore);
        }
    }

    fn show(&self, slip: Slip, wanted: Difference, source: Source) -> Option<Case> {
        let found = find(slip, wanted, source, self.seed, self.effort);
        match (&found, source) {
            (Some(case), _) => print!("{}", print(case, slip)),
            (None, Source::Opened) => println!("  none found on an opened formula"),
            (None, _) => println!("  none found"),
        }
        found
    }
}

//! All slips of every wish, and what tells each apart: the table `tests/SLIPS.md`, which the program `slips` prints and
//! a test holds to be true.

use crate::bounded::{self, Bounded, CeilingSlip};
use crate::cases::{self, Program, StoredCase};
use crate::day::{self, DaySlip};
use crate::editions::{self, EditionSlip, Reads};
use crate::finder::{find, Difference, Effort, Source};
use crate::formula::Formula;
use crate::last_card::{self, LastCardSlip};
use crate::limits::{self, LimitSlip};
use crate::options::Options;
use crate::page::{self, PageSlip};
use crate::qdimacs::{self, QdimacsSlip};
use crate::session;
use crate::slip::{self, Slip};
use crate::solver::Solver;
use std::io;

/// A slip of any kind.
#[derive(Clone, Copy, Debug, PartialEq, Eq)]
pub enum AnySlip {
    Call(Slip),
    Ceiling(CeilingSlip),
    Limit(LimitSlip),
    LastCard(LastCardSlip),
    Page(PageSlip),
    Qdimacs(QdimacsSlip),
    Edition(EditionSlip),
    Day(DaySlip),
}

/// What tells a slip apart.
#[derive(Clone, Debug, PartialEq, Eq)]
pub enum Witness {
    /// A stored case prints something else: its program and name.
    Case(Program, String),
    /// A list of calls that is drawn at random, or known by hand, has another answer.
    Drawn(Source),
    /// A row of the finder alone, in crates/qbf/proofs/Finder.antt.
    FinderRow,
    /// A test of this package that runs every slip of its kind.
    Test(&'static str),
}

/// A heading, and under it the slips with what goes wrong.
pub type Section = (&'static str, Vec<(AnySlip, &'static str)>);

/// By what they are slips of.
pub fn sections() -> Vec<Section> {
    let calls = |of: &dyn Fn(Slip) -> bool| -> Vec<(AnySlip, &'static str)> {
        let some = slip::ALL.iter().filter(|(slip, _)| of(*slip));
        some.map(|(slip, words)| (AnySlip::Call(*slip), *words)).collect()
    };
    fn all<S: Copy>(
        list: &[(S, &'static str)],
        any: impl Fn(S) -> AnySlip,
    ) -> Vec<(AnySlip, &'static str)> {
        list.iter().map(|(slip, words)| (any(*slip), *words)).collect()
    }
    let others = [
        Slip::is_of_one,
        Slip::is_of_withdrawal,
        Slip::is_of_open_query,
        Slip::is_of_finder,
        Slip::is_of_keep_card,
        Slip::is_of_closest,
        Slip::is_of_writing,
    ];
    let first = |slip: Slip, of: fn(Slip) -> bool| {
        others.iter().find(|other| other(slip)).is_some_and(|other| *other as usize == of as usize)
    };
    vec![
        (
            "Paper 01: searches, store, card, refusals",
            calls(&|slip| !others.iter().any(|of| of(slip))),
        ),
        ("Wish 1: books that come as QDIMACS", all(qdimacs::ALL, AnySlip::Qdimacs)),
        ("Wish 2: a book written back", calls(&|slip| first(slip, Slip::is_of_writing))),
        ("Wish 4: the newest rule withdrawn", calls(&|slip| first(slip, Slip::is_of_withdrawal))),
        ("Wish 5: queries with open flags", calls(&|slip| first(slip, Slip::is_of_open_query))),
        ("Wish 6: the finder of dead rules", calls(&|slip| first(slip, Slip::is_of_finder))),
        ("Wish 7: the keep card", calls(&|slip| first(slip, Slip::is_of_keep_card))),
        ("Wish 8: a ceiling on visits", all(bounded::ALL, AnySlip::Ceiling)),
        ("Wish 8: own limits", all(limits::ALL, AnySlip::Limit)),
        ("Wish 9: the closest reading", calls(&|slip| first(slip, Slip::is_of_closest))),
        ("Wish 10: exactly-one forms by a call", calls(&|slip| first(slip, Slip::is_of_one))),
        ("Wish 11: a printed page", all(page::ALL, AnySlip::Page)),
        ("Wish 11: the card answered last", all(last_card::ALL, AnySlip::LastCard)),
        ("Wish 12: a day of eight books", all(day::ALL, AnySlip::Day)),
        (
            "Wishes 13 and 10: editions, and exactly-one forms in a text",
            all(editions::ALL, AnySlip::Edition),
        ),
    ]
}

impl AnySlip {
    /// Its name in the source.
    pub fn name(&self) -> String {
        match self {
            AnySlip::Call(slip) => format!("{slip:?}"),
            AnySlip::Ceiling(slip) => format!("{slip:?}"),
            AnySlip::Limit(slip) => format!("{slip:?}"),
            AnySlip::LastCard(slip) => format!("{slip:?}"),
            AnySlip::Page(slip) => format!("{slip:?}"),
            AnySlip::Qdimacs(slip) => format!("{slip:?}"),
            AnySlip::Edition(slip) => format!("{slip:?}"),
            AnySlip::Day(slip) => format!("{slip:?}"),
        }
    }

    /// The programs whose cases can show it.
    fn programs(&self) -> &'static [Program] {
        match self {
            AnySlip::Call(_) => &[Program::Card, Program::Session],
            AnySlip::Ceiling(_) | AnySlip::LastCard(_) => &[Program::Session],
            AnySlip::Limit(slip) if slip.is_of_states() => &[],
            AnySlip::Limit(_) => &Program::LIMITED,
            AnySlip::Page(_) => &[Program::Pages],
            AnySlip::Qdimacs(_) => &[Program::Qdimacs],
            AnySlip::Edition(_) => &[Program::Tag, Program::Untag, Program::Card],
            AnySlip::Day(_) => &[Program::Day],
        }
    }

    /// Where it is looked for when no stored case shows it.
    fn otherwise(&self) -> Witness {
        match self {
            AnySlip::Call(slip) if slip.is_hidden() => Witness::FinderRow,
            AnySlip::Call(slip) if slip.needs_given_store() => Witness::Drawn(Source::GivenStore),
            AnySlip::Call(slip) if slip.is_of_check() => Witness::Drawn(Source::Malformed),
            AnySlip::Call(_) => Witness::Drawn(Source::Opened),
            AnySlip::Ceiling(_) => Witness::Test("bounded"),
            AnySlip::Limit(_) => Witness::Test("limits"),
            AnySlip::LastCard(_) => Witness::Test("cases"),
            AnySlip::Page(_) => Witness::Test("page"),
            AnySlip::Qdimacs(_) => Witness::Test("qdimacs"),
            AnySlip::Edition(_) => Witness::Test("editions"),
            AnySlip::Day(_) => Witness::Test("day"),
        }
    }

    /// Whether a stored case prints something else with the slip switched in.
    pub fn changes(&self, case: &StoredCase) -> bool {
        let input = &case.input[..];
        let bytes = "bytes in and out";
        let mut output = vec![];
        let of_ceiling = match *self {
            AnySlip::Ceiling(slip) => Some(slip),
            _ => None,
        };
        // Where its usage is printed the program reads nothing.
        let given = match (case.given(None), self) {
            (None, AnySlip::Limit(_)) => (0, 0),
            (None, _) => return false,
            (Some(_), AnySlip::Limit(_)) if case.arguments.is_empty() => return false,
            (Some(given), _) => given,
        };
        let options = Options::with(bounded::limits(given.0, given.1, of_ceiling));
        match (*self, case.program) {
            (AnySlip::Call(slip), _) => {
                let judges_state = slip.judges_state();
                output = case.printed(&Options { slip: Some(slip), judges_state, ..options });
            }
            (AnySlip::Ceiling(slip), _) => {
                let start = |formula: Formula| Bounded {
                    solver: Solver::opened(formula, options),
                    slip: Some(slip),
                };
                session::run_on(input, &mut output, &options, None, start).expect(bytes);
            }
            (AnySlip::Limit(slip), _) => {
                output = case.printed(&Options { of_limits: Some(slip), ..options });
            }
            (AnySlip::LastCard(slip), _) => {
                let start = |formula| Solver::opened(formula, options);
                session::run_on(input, &mut output, &options, Some(slip), start).expect(bytes);
            }
            (AnySlip::Page(slip), _) => output = page::pages_program(input, &options, Some(slip)),
            (AnySlip::Qdimacs(slip), _) => {
                output = qdimacs::program(input, &options, Some(slip)).into_bytes();
            }
            (AnySlip::Edition(slip), Program::Tag) => {
                output = editions::tag_program(input, &options, Some(slip));
            }
            (AnySlip::Edition(slip), Program::Untag) => {
                output = editions::untag_program(input, &options, Some(slip));
            }
            (AnySlip::Edition(slip), _) => {
                let opened = |slip| editions::open(input, Reads::Both, &options, slip);
                return opened(Some(slip)) != opened(None);
            }
            (AnySlip::Day(slip), _) => {
                day::program::run(input, &mut output, Some(slip)).expect(bytes);
            }
        }
        output != case.expected
    }

    /// Whether a witness tells it apart.
    pub fn shown_by(&self, witness: &Witness, stored: &[StoredCase]) -> bool {
        match (self, witness) {
            (_, Witness::Case(program, name)) => {
                let is_it = |case: &&StoredCase| case.program == *program && case.name == *name;
                stored.iter().find(is_it).is_some_and(|case| self.changes(case))
            }
            (AnySlip::Call(slip), Witness::Drawn(source)) => {
                let effort = Effort { tries: 300_000, hits: 1 };
                find(*slip, Difference::Answer, *source, 1, effort).is_some()
            }
            // The test of that name runs it; here it is held to be the one that does.
            (_, witness) => *witness == self.otherwise(),
        }
    }

    /// The smallest stored case that shows it; else what does.
    pub fn witness(&self, stored: &[StoredCase]) -> Witness {
        let mut stored: Vec<&StoredCase> =
            stored.iter().filter(|case| self.programs().contains(&case.program)).collect();
        stored.sort_by_key(|case| (case.input.len() + case.expected.len(), case.name.clone()));
        let hidden = matches!(self, AnySlip::Call(slip) if slip.is_unprinted());
        let mut shown = stored.iter().filter(|case| !hidden && self.changes(case));
        match shown.next() {
            Some(case) => Witness::Case(case.program, case.name.clone()),
            None => self.otherwise(),
        }
    }
}

const GIVEN: &str = "well-formed states that no calls reach, drawn";
const MALFORMED: &str = "malformed states, drawn";
const OPENED: &str = "lists of calls on opened books, drawn";
const FINDER: &str = "the finder's own rows, `crates/qbf/proofs/Finder.antt`";

impl Witness {
    fn words(&self) -> String {
        match self {
            Witness::Case(program, name) => format!("`{}/{name}`", program.name()),
            Witness::Drawn(Source::Opened) => OPENED.into(),
            Witness::Drawn(Source::GivenStore) => GIVEN.into(),
            Witness::Drawn(Source::Malformed) => MALFORMED.into(),
            Witness::FinderRow => FINDER.into(),
            Witness::Test(name) => format!("`compare/tests/{name}.rs`"),
        }
    }

    /// What the words of a table stand for, for a slip that may have them.
    pub fn read(words: &str, slip: &AnySlip) -> Option<Witness> {
        let others = [
            slip.otherwise(),
            Witness::Drawn(Source::Opened),
            Witness::Drawn(Source::GivenStore),
            Witness::Drawn(Source::Malformed),
        ];
        let case = || {
            let (program, name) = words.strip_prefix('`')?.strip_suffix('`')?.split_once('/')?;
            let program = Program::ALL.into_iter().find(|other| other.name() == program)?;
            Some(Witness::Case(program, name.into()))
        };
        others.into_iter().find(|other| other.words() == words).or_else(case)
    }
}

/// All stored cases.
pub fn stored() -> io::Result<Vec<StoredCase>> {
    let mut all = vec![];
    for program in Program::ALL {
        all.extend(cases::stored(program)?);
    }
    for program in Program::LIMITED {
        all.extend(cases::limited(program)?);
    }
    Ok(all)
}

/// The witness that rows of a table name for a slip.
pub fn named(rows: &[Row], heading: &str, slip: &AnySlip) -> Option<Witness> {
    let row = rows.iter().find(|row| row.heading == heading && row.slip == slip.name());
    row.and_then(|row| Witness::read(&row.witness, slip))
}

/// The table, with the witnesses that an earlier text of it names where they still show their slips.
pub fn renewed(earlier: &str) -> String {
    let (rows, stored) = (read_table(earlier), stored().expect("cases can be read"));
    table(|heading, slip| {
        let kept = named(&rows, heading, slip).filter(|kept| slip.shown_by(kept, &stored));
        kept.or_else(|| Some(slip.witness(&stored)))
    })
}

/// The table, with what a witness is given for each slip under its heading.
pub fn table(witness: impl Fn(&str, &AnySlip) -> Option<Witness>) -> String {
    let mut text = String::from(HEAD);
    for (heading, slips) in sections() {
        text +=
            &format!("\n## {heading}\n| Slip | What goes wrong | Told apart by |\n|---|---|---|\n");
        for (slip, wrong) in slips {
            let words = witness(heading, &slip).map_or("nothing".into(), |found| found.words());
            text += &format!("| {} | {wrong} | {words} |\n", slip.name());
        }
    }
    text
}

const HEAD: &str = "# Slips, and what tells each apart

Mistakes of a line or two that can be switched into the independent implementation (`tests/compare`). The last column names a stored case of
`tests/cases` whose output changes with the slip, the smallest there is, or what shows the slip where no printed answer can. The program
`slips table` of `tests/compare` prints this page; `tests/compare/tests/slip_table.rs` holds it to list every slip and each
witness to show its slip. `tests/native` demands the same of the comparison with the compiled library.
";

/// A row of the table.
#[derive(Clone, Debug, PartialEq, Eq)]
pub struct Row {
    pub heading: String,
    pub slip: String,
    pub witness: String,
}

/// What a text of the table says.
pub fn read_table(text: &str) -> Vec<Row> {
    let mut heading = String::new();
    let mut rows = vec![];
    for line in text.lines() {
        if let Some(words) = line.strip_prefix("## ") {
            heading = words.into();
        }
        let cells: Vec<&str> = line.trim_matches('|').split(" | ").map(str::trim).collect();
        if let (true, [slip, _, witness]) = (line.starts_with("| "), &cells[..]) {
            let (heading, slip) = (heading.clone(), slip.to_string());
            rows.push(Row { heading, slip, witness: witness.to_string() });
        }
    }
    rows
}

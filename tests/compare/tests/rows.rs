//! The rows that the definitions answer by computation (`crates/qbf/proofs/Bench.antt`,
//! `Cases.antt`, `Withdrawals.antt`, `KeepCards.antt`, `Ceilings.antt`, `OpenQueries.antt`, `Ones.antt`,
//! `Closests.antt` and `Finder.antt`), answered by this implementation.

use compare::check;
use compare::dead::dead_clause;
use compare::rows::{read, read_finder, FinderRow, Row};
use compare::slip::{Slip, ALL};
use compare::{Answer, Call, Options, PlainRun, Said, Solver, Subject};

/// Each table with how many rows it has at least.
const TABLES: [(&str, &str, usize); 17] = [
    ("Bench.antt", "table", 10),
    ("Bench.antt", "others", 6),
    ("Cases.antt", "table", 28),
    ("Cases.antt", "on_states", 3),
    ("Withdrawals.antt", "table", 8),
    ("Withdrawals.antt", "on_states", 7),
    ("KeepCards.antt", "table", 5),
    ("Cases.antt", "malformed", 16),
    ("Ceilings.antt", "stopping", 7),
    ("Ceilings.antt", "table", 4),
    ("Ceilings.antt", "malformed", 5),
    ("OpenQueries.antt", "table", 6),
    ("OpenQueries.antt", "on_states", 2),
    ("Ones.antt", "table", 6),
    ("Ones.antt", "malformed", 1),
    ("Closests.antt", "table", 8),
    ("Closests.antt", "stopping", 3),
];

fn rows(file: &str, name: &str) -> Vec<Row> {
    read(file, name).expect("the computed tables can be read")
}

#[test]
fn every_row() {
    for (file, name, least) in TABLES {
        let rows = rows(file, name);
        assert!(rows.len() >= least, "only {} rows in {name} of {file}", rows.len());
        for (index, row) in rows.into_iter().enumerate() {
            let words = format!("row {} of {name} in {file}: {:?}", index + 1, row.calls);
            if let Some(answers) = &row.plain {
                let mut plain = PlainRun::new(row.state.formula.clone(), row.limits);
                assert_eq!(row.asked(&mut plain), *answers, "plain run, {words}");
            }
            let mut solver = Solver::new(row.state.clone(), Options::with(row.limits));
            assert_eq!(row.asked(&mut solver), row.answers, "{words}");
        }
    }
}

/// Whether a slip changes what a row answers. A search on a malformed state means nothing, so what a
/// check omits is shown by forget alone.
fn changes(row: &Row, slip: Slip) -> bool {
    let judges_state = slip.judges_state();
    let options = Options { slip: Some(slip), judges_state, ..Options::with(row.limits) };
    let answers = |call: &Call| Solver::new(row.state.clone(), options).call(call);
    match slip {
        Slip::CheckOmits(_) => answers(&Call::Forget) != Answer::new(Said::Refused(22)),
        _ => row.asked(&mut Solver::new(row.state.clone(), options)) != row.answers,
    }
}

/// Slips that no row's answers show, and the cases do: of a book written back, of the finder, which has rows of its
/// own, what an open query would store, which rules stand after an exactly-one form, and 35 for a table of no line.
fn hidden(slip: Slip) -> bool {
    use Slip::*;
    let others =
        [OpenQueryLearns, OnePairsBySecond, OneHalfAdded, WithdrawalTakesForm, NoLineBefore21];
    slip.is_of_writing() || slip.is_of_finder() || others.contains(&slip)
}

/// The rows are strong enough: every other slip changes what one of them answers.
#[test]
fn every_slip_changes_a_row() {
    let all = TABLES.iter().flat_map(|(file, name, _)| rows(file, name));
    let is_malformed = |row: &Row| check::malformed(&row.state, &Options::with(row.limits));
    let (malformed, sound): (Vec<Row>, Vec<Row>) = all.partition(is_malformed);
    let unseen = |slip: Slip| {
        let rows = if slip.is_of_check() { &malformed } else { &sound };
        !hidden(slip) && !rows.iter().any(|row| changes(row, slip))
    };
    let unseen: Vec<_> = ALL.iter().filter(|(slip, _)| unseen(*slip)).collect();
    assert!(unseen.is_empty(), "{unseen:#?}");
}

/// What the finder returns at a row's node.
fn found(row: &FinderRow, options: &Options) -> Option<Vec<i16>> {
    let index = dead_clause(&row.formula, &row.node, options)?;
    Some(row.formula.clauses[index].clone())
}

#[test]
fn every_row_of_the_finder() {
    let rows = read_finder().expect("the computed table can be read");
    assert!(rows.len() >= 8, "only {} rows", rows.len());
    for (index, row) in rows.iter().enumerate() {
        assert_eq!(found(row, &Options::paper()), row.lowest, "row {}: {row:?}", index + 1);
    }
    for (slip, words) in ALL.iter().filter(|entry| entry.0.is_of_finder()) {
        let options = Options { slip: Some(*slip), ..Options::paper() };
        assert!(rows.iter().any(|row| found(row, &options) != row.lowest), "{slip:?}: {words}");
    }
}

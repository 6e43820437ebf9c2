//! The compiled finder of step 1 against the independent one, at nodes that no search need reach:
//! "Its contract says so at every node, also one that no walk reaches."

mod question;

use compare::dead::dead_clause;
use compare::rows::read_finder;
use compare::slip::{Slip, ALL};
use compare::Options;
use native::run::seed;
use question::{answer, answer_outside, draw, Question, CLAUSE_WIDTH};

const QUESTIONS: u64 = 200_000;

fn expected(question: &Question, slip: Option<Slip>) -> Option<usize> {
    let options = Options { slip, ..Options::paper() };
    dead_clause(&question.formula, &question.node, &options)
}

#[test]
fn random_questions() {
    let seed = seed();
    let (mut dead, mut not_first) = (0, 0);
    for index in 0..QUESTIONS {
        let question = draw(seed, index);
        let found = expected(&question, None);
        assert_eq!(answer(&question), found, "index {index}: {question:?}");
        dead += u64::from(found.is_some());
        not_first += u64::from(found != expected(&question, Some(Slip::FirstDeadClause)));
    }
    println!("{dead} with a dead clause, {not_first} where the first is not the lowest");
    assert!(dead > QUESTIONS / 2 && not_first > QUESTIONS / 4);
}

/// The comparison can fail: each slip of the finder is told apart.
#[test]
fn every_slip_is_told_apart() {
    let seed = seed();
    for (slip, words) in ALL.iter().filter(|(slip, _)| slip.is_of_finder()) {
        let apart = |index: &u64| {
            let question = draw(seed, *index);
            answer(&question) != expected(&question, Some(*slip))
        };
        assert!((0..QUESTIONS / 100).any(|index| apart(&index)), "{slip:?}: {words}");
    }
}

#[test]
fn computed_rows() {
    for row in read_finder().expect("the computed table can be read") {
        let question = Question { formula: row.formula, node: row.node };
        let found = answer(&question).map(|index| question.formula.clauses[index].clone());
        assert_eq!(found, row.lowest, "{question:?}");
    }
}

/// Clauses that do not lie within their table are not read.
#[test]
fn short_tables() {
    let seed = seed();
    for index in 0..1_000 {
        let question = draw(seed, index);
        let clauses = &question.formula.clauses;
        let Some(last) = clauses.last() else { continue };
        let end = (clauses.len() - 1) * CLAUSE_WIDTH + last.len();
        let found = expected(&question, None).unwrap_or(clauses.len());
        assert_eq!(answer_outside(&question, end), found, "{question:?}");
        assert_eq!(answer_outside(&question, end - 1), clauses.len(), "{question:?}");
        assert_eq!(answer_outside(&question, 0), clauses.len(), "{question:?}");
    }
}

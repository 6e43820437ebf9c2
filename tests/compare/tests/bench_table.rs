//! Paper 01's bench table and the figures of the team's readings; visits as learning/plain.

use compare::text::{card_program, open};
use compare::{Answer, Call, Formula, Limits, Options, PlainRun, Reading, Said, Solver, Subject};

const A: &str =
    "(flags 1 2)\n(exists 3)\n(forall 4)\n(rule 3 4 (no 1))\n(rule (no 3) (no 4) 2)\n(rule 1 2)\n";
const A_EXCHANGED: &str =
    "(flags 2 1)\n(exists 3)\n(forall 4)\n(rule 3 4 (no 1))\n(rule (no 3) (no 4) 2)\n(rule 1 2)\n";
const B: &str = "(flags 1)\n(exists 2)\n(rule 2)\n(rule (no 2))\n";
const C: &str = "(flags 1 2)\n(exists 3)\n(forall 4)\n(rule 3 4 1)\n(rule (no 3) (no 4) 2)\n";
const D: &str = "(flags)\n(forall 1)\n(exists 2)\n(rule 1 2)\n(rule (no 1) (no 2))\n";
const D_EXCHANGED: &str = "(flags)\n(exists 1)\n(forall 2)\n(rule 1 2)\n(rule (no 1) (no 2))\n";

fn formula(body: &str) -> Formula {
    let text = format!("(book 1)\n{body}(end)\n");
    open(text.as_bytes(), &Options::paper()).expect("a book of the table opens")
}

/// One call with what it answers: the reply, the table and both counts of visits.
type Row = (Call, Said, &'static [u8], u64, u64);

fn expect(body: &str, rows: &[Row]) {
    let formula = formula(body);
    let mut learning = Solver::opened(formula.clone(), Options::paper());
    let mut plain = PlainRun::new(formula, Limits::PAPER);
    for (call, said, table, learning_visits, plain_visits) in rows {
        let answer = |visits| Answer { said: *said, table: table.to_vec(), visits };
        assert_eq!(learning.call(call), answer(*learning_visits), "learning, {call}\n{body}");
        assert_eq!(plain.call(call), answer(*plain_visits), "plain, {call}\n{body}");
    }
}

fn query(on: &[i16], off: &[i16]) -> Call {
    Call::Query(Reading::new(on, off))
}

#[test]
fn table_of_bench_cases() {
    use Call::{Card, Rule};
    use Said::{Added, Keep, Lines, Swap};
    expect(A, &[(Card(4), Lines(2), &[1, 2, 2, 2], 11, 11)]);
    expect(A_EXCHANGED, &[(Card(4), Lines(1), &[2, 0, 0, 0], 11, 11)]);
    expect(A, &[(query(&[1], &[2]), Keep, &[], 3, 3), (query(&[1], &[2]), Keep, &[], 1, 3)]);
    expect(A, &[(query(&[2], &[1]), Swap, &[], 1, 1)]);
    expect(B, &[(Card(1), Lines(0), &[0], 4, 7), (Card(1), Lines(0), &[0], 1, 7)]);
    expect(C, &[(Card(4), Lines(2), &[1, 2, 2, 0], 11, 12)]);
    expect("(flags 1 2)\n", &[(Card(2), Lines(1), &[0, 0], 1, 1)]);
    expect("(flags)\n(forall 1)\n(rule 1)\n", &[(Card(0), Lines(0), &[], 1, 1)]);
    let d_card: Row = (Card(0), Lines(1), &[], 6, 6);
    let rule_added: Row = (Rule(vec![2]), Added, &[], 0, 0);
    expect(D, &[d_card, rule_added, (Card(0), Lines(0), &[], 7, 7)]);
    expect(D_EXCHANGED, &[(Card(0), Lines(0), &[], 3, 3)]);
}

#[test]
fn figures_of_the_readings() {
    use Call::{Card, Forget};
    use Said::{Forgotten, Keep, Lines, Refused};
    let a_card: Row = (Card(4), Lines(2), &[1, 2, 2, 2], 11, 11);
    let forgotten: Row = (Forget, Forgotten, &[], 0, 0);
    let refused: Row = (Card(3), Refused(21), &[0, 0, 0], 11, 11);
    expect(A, &[a_card, forgotten, refused, (Card(4), Lines(2), &[1, 2, 2, 2], 9, 11)]);
    let exchanged: Row = (Card(2), Lines(1), &[2, 0], 11, 11);
    expect(A_EXCHANGED, &[exchanged, (Card(1), Refused(21), &[0], 7, 11)]);
    expect(B, &[(Card(1), Lines(0), &[0], 4, 7), (query(&[], &[1]), Keep, &[], 1, 3)]);
}

#[test]
fn program_prints_book_a() {
    let text = format!("(book 1)\n{A}(end)\n");
    let printed = card_program(text.as_bytes(), &Options::paper());
    assert_eq!(printed, "(card 1)\n(line (no 1) 2)\n(line 1 2)\n(visits 11)\n(end)\n");
}

#[test]
fn lines_of_the_table_in_print() {
    let printed = |body: &str| {
        let text = format!("(book 1)\n{body}(end)\n");
        card_program(text.as_bytes(), &Options::paper())
    };
    assert_eq!(printed(A_EXCHANGED), "(card 1)\n(line 2)\n(visits 11)\n(end)\n");
    assert_eq!(printed(C), "(card 1)\n(line (no 1) 2)\n(line 1)\n(visits 11)\n(end)\n");
    assert_eq!(printed(D), "(card 1)\n(line)\n(visits 6)\n(end)\n");
    assert_eq!(printed(B), "(card 1)\n(visits 4)\n(end)\n");
}

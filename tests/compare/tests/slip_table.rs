//! `tests/SLIPS.md` lists every slip, and each witness that it names shows its slip.

use compare::slips::{named, read_table, sections, stored, table};

const TABLE: &str = include_str!("../../SLIPS.md");

#[test]
fn every_slip_is_told_apart() {
    let (rows, stored) = (read_table(TABLE), stored().expect("cases can be read"));
    let mut wrong = vec![];
    for (heading, slips) in sections() {
        for (slip, words) in slips {
            let witness = named(&rows, heading, &slip);
            if !witness.is_some_and(|witness| slip.shown_by(&witness, &stored)) {
                wrong.push(format!("{slip:?}: {words}"));
            }
        }
    }
    assert!(wrong.is_empty(), "print the table again (`slips table`): {wrong:#?}");
}

/// Word by word, so that no row is left over.
#[test]
fn the_table_is_as_it_is_printed() {
    let rows = read_table(TABLE);
    let printed = table(|heading, slip| named(&rows, heading, slip));
    assert!(printed == TABLE, "print the table again (`slips table`)");
}

//! Printed pages: the figures of the wish, its refusals, and that each slip of a page shows.

use compare::page::{lent, Card, ALL, BYTES, COLUMNS, ROWS};

/// A card of so many lines of one flag that is on.
fn on(lines: usize) -> Vec<u8> {
    vec![2; lines]
}

fn row(text: &str) -> String {
    format!("{text:<71}\n")
}

fn rows(card: &Card, number: usize) -> Vec<String> {
    let bytes = card.page(number, None).expect("a page that the card has");
    assert_eq!(bytes.len(), BYTES);
    let row = |row: &[u8]| String::from_utf8(row.to_vec()).expect("rows are ASCII");
    bytes.chunks(COLUMNS).map(row).collect()
}

fn head(number: usize) -> String {
    row(&format!("CARD{}{number:>5}", " ".repeat(62)))
}

#[test]
fn a_page_of_book_a() {
    let table = [1, 2, 2, 2];
    let rows = rows(&Card { table: &table, lines: 2, flags: 2 }, 1);
    assert_eq!(rows.len(), ROWS);
    assert_eq!(rows[..4], [head(1), row("    1  01"), row("    2  11"), row("")]);
    assert!(rows[4..].iter().all(|blank| *blank == row("")));
}

#[test]
fn lines_on_their_pages() {
    for (lines, pages) in [(0, 1), (1, 1), (22, 1), (23, 2), (44, 2), (45, 3), (99_999, 4_546)] {
        let table = on(lines);
        let card = Card { table: &table, lines, flags: 1 };
        assert_eq!(card.pages(None), pages, "{lines}");
        let last = rows(&card, pages);
        assert_eq!(last[0], head(pages));
        assert_eq!(last[23], row(""));
        if lines > 0 {
            let place = (lines - 1) % 22 + 1;
            assert_eq!(last[place], row(&format!("{lines:>5}  1")), "{lines}");
            assert!(last[place + 1..].iter().all(|blank| *blank == row("")));
        }
        assert_eq!(card.page(pages + 1, None), Err(36));
        assert_eq!(card.page(0, None), Err(36));
    }
}

#[test]
fn flags_in_place_order() {
    let table: Vec<u8> = (0..40).map(|place| place % 3).collect();
    let rows = rows(&Card { table: &table, lines: 1, flags: 40 }, 1);
    assert_eq!(rows[1], row(&format!("    1  {}.", ".01".repeat(13))));
    let none = Card { table: &[], lines: 99_999, flags: 0 };
    assert_eq!(self::rows(&none, 4_546)[9], row("99999"));
}

/// Cards that cannot be printed, whatever the page.
#[test]
fn damaged_tables() {
    let spoiled = |at: usize, byte| {
        let mut table = on(45);
        table[at] = byte;
        table
    };
    for (table, lines, flags) in [
        (spoiled(0, 3), 45, 1),
        (spoiled(44, 255), 45, 1),
        (on(44), 45, 1),
        (on(1), 1, 2),
        (vec![], 100_000, 0),
        (vec![], usize::MAX, usize::MAX),
        (vec![], 2, 1 << 63),
    ] {
        let card = Card { table: &table, lines, flags };
        for number in [0, 1, 2, 3, 4] {
            assert_eq!(card.page(number, None), Err(36), "{lines} {flags} {number}");
        }
    }
    let after = spoiled(44, 9);
    assert!(Card { table: &after, lines: 44, flags: 1 }.page(1, None).is_ok());
    assert!(Card { table: &[], lines: 0, flags: usize::MAX }.page(1, None).is_ok());
}

#[test]
fn tables_lent_for_a_page() {
    let card = Card { table: &[2], lines: 1, flags: 1 };
    assert_eq!(lent(&card, 1, BYTES - 1, None), (31, vec![0; BYTES - 1]));
    assert_eq!(lent(&card, 2, BYTES - 1, None), (36, vec![0; BYTES - 1]));
    assert_eq!(lent(&card, 2, BYTES + 1, None), (36, vec![0; BYTES + 1]));
    let (refusal, bytes) = lent(&card, 1, BYTES + 1, None);
    assert_eq!((refusal, bytes[BYTES - 1], bytes[BYTES]), (0, b'\n', 0));
}

/// Small cards tell every slip apart.
#[test]
fn every_slip_shows() {
    let mut spoiled = on(45);
    spoiled[44] = 3;
    let cards = [
        Card { table: &[0, 1, 2, 0, 1, 2], lines: 2, flags: 3 },
        Card { table: &[], lines: 0, flags: 3 },
        Card { table: &[2, 2, 2, 7], lines: 3, flags: 1 },
        Card { table: &spoiled, lines: 45, flags: 1 },
        Card { table: &spoiled, lines: 44, flags: 1 },
        Card { table: &[2; 3], lines: 2, flags: 2 },
        Card { table: &[], lines: 1, flags: 0 },
        Card { table: &[], lines: 100_000, flags: 0 },
    ];
    for (slip, words) in ALL {
        let shows = |card: &Card| {
            (0..5).any(|n| lent(card, n, BYTES, None) != lent(card, n, BYTES, Some(*slip)))
        };
        assert!(cards.iter().any(shows), "{slip:?}: {words}");
    }
}

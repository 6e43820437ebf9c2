//! Printed pages.

use super::{numbers, Counts};
use crate::text::page;
use compare::page::{lent, Card, PageSlip, BYTES, MOST_LINES};
use compare::random::Random;

/// A table with its numbers, and what to ask for.
#[derive(Debug)]
pub struct Asked {
    table: Vec<u8>,
    lines: usize,
    flags: usize,
    number: usize,
    room: usize,
}

impl Asked {
    fn card(&self) -> Card<'_> {
        Card { table: &self.table, lines: self.lines, flags: self.flags }
    }

    pub fn found(&self) -> Result<(u16, Vec<u8>), String> {
        page(&self.card(), self.number, self.room).map_err(|words| format!("{words}: {self:?}"))
    }

    pub fn expected(&self, slip: Option<PageSlip>) -> (u16, Vec<u8>) {
        lent(&self.card(), self.number, self.room, slip)
    }
}

/// Cards of all sizes, whole or damaged, and any numbers at all.
pub fn drawn(seed: u64, index: u64) -> Asked {
    let random = &mut numbers(seed, 14, index);
    let flags = match random.below(8) {
        0 => 0,
        1 => 40,
        2 => random.pick(&[63, 64, 65, 100]),
        _ => random.between(1, 40),
    };
    let lines = match random.below(8) {
        0..=2 => random.pick(&[0, 1, 21, 22, 23, 44, 45, 66]),
        3 if flags < 2 => random.pick(&[MOST_LINES - 1, MOST_LINES, MOST_LINES + 1]),
        _ => random.below(150),
    };
    let mut table: Vec<u8> = (0..lines * flags).map(|_| random.below(3) as u8).collect();
    spoil(&mut table, random);
    let pages = lines.div_ceil(22).max(1);
    let number = match random.below(8) {
        0 => random.pick(&[0, pages + 1, usize::MAX, 1 << 32]),
        1 => pages,
        _ => random.between(1, pages),
    };
    let room = random.pick(&[BYTES, BYTES, BYTES, BYTES + 1, 2 * BYTES, BYTES - 1, 0, 72]);
    let mut asked = Asked { table, lines, flags, number, room };
    if random.one_in(20) {
        asked.lines = random.pick(&[usize::MAX, 1 << 63, usize::MAX / 40 + 1]);
    }
    if random.one_in(20) {
        asked.flags = random.pick(&[usize::MAX, 1 << 32, usize::MAX / 2]);
    }
    asked
}

/// A table too short or longer, or a byte that no line has.
fn spoil(table: &mut Vec<u8>, random: &mut Random) {
    match random.below(8) {
        0 => drop(table.pop()),
        1 => table.truncate(random.below(table.len() + 1)),
        2 | 3 => table.extend(std::iter::repeat_n(random.pick(&[0, 2, 3, 255]), random.below(90))),
        4 if !table.is_empty() => {
            let at = random.below(table.len());
            table[at] = random.pick(&[3, 4, 46, 255]);
        }
        _ => {}
    }
}

pub fn round(seed: u64, index: u64, counts: &mut Counts) -> Result<(), String> {
    counts.input("pages");
    let asked = drawn(seed, index);
    let (found, expected) = (asked.found()?, asked.expected(None));
    counts.call("page", found.0);
    match found == expected {
        true => Ok(()),
        false => Err(format!("{asked:?}: {} instead of {}", found.0, expected.0)),
    }
}

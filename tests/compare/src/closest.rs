//! Paper 02, wish 9: "Given a full reading, return a reading on the swap card that differs from it in the fewest
//! flags, and that number."

use crate::formula::Formula;
use crate::options::{Options, MOST_FLAGS};
use crate::reading::Reading;
use crate::refusal;
use crate::slip::Slip;

/// The closest reading and the card that it was found on.
#[derive(Clone, Copy, Debug, PartialEq, Eq)]
pub struct Closest {
    /// By place: 1 off, 2 on, and 0 behind the flags.
    pub reading: [u8; MOST_FLAGS],
    pub differs: usize,
    /// "whose count .. it also returns".
    pub lines: usize,
}

/// "Here a flag left open is 8 too".
pub fn refusal(formula: &Formula, reading: &Reading, options: &Options) -> Option<u8> {
    let open = !reading.is_full(formula) && !options.slips(Slip::ClosestOpenIsOff);
    refusal::of_query(formula, reading, options).or(open.then_some(8))
}

/// The closest reading on the lines of a card, whose bytes a table holds; none on a card without lines.
pub fn find(
    formula: &Formula,
    reading: &Reading,
    lines: usize,
    table: &[u8],
    options: &Options,
) -> Option<Closest> {
    let given: Vec<u8> =
        reading.values(formula).iter().map(|v| 1 + u8::from(*v == Some(true))).collect();
    let flags = given.len();
    let mut best: Option<Closest> = None;
    for line in 0..lines {
        // Only a slip has a line that does not stand whole in the table.
        let line = table.iter().skip(line * flags).chain(std::iter::repeat(&0)).take(flags);
        let mut found = Closest { reading: [0; MOST_FLAGS], differs: 0, lines };
        for (place, (set, given)) in line.zip(&given).enumerate() {
            let open = *set == 0;
            found.differs += usize::from(!open && set != given);
            found.differs += usize::from(open && options.slips(Slip::ClosestCountsOpen));
            let value = if options.slips(Slip::ClosestOpenOfLineIsOff) { &1 } else { given };
            found.reading[place] = if open { *value } else { *set };
        }
        // Lines come in order, so that of equals the first is "the first by off before on in place order".
        let last = usize::from(options.slips(Slip::ClosestLastOfEquals));
        if best.is_none_or(|best| found.differs < best.differs + last) {
            best = Some(found);
        }
    }
    best
}

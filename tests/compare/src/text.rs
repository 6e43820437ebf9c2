//! Opening a text, and the program `card`.

use crate::answer::{Answer, Call, Said, Subject};
use crate::editions::{self, Reads};
use crate::formula::Formula;
use crate::options::Options;
use crate::solver::Solver;

/// "9 text over 65,536 bytes".
pub const LARGEST_TEXT: usize = 65_536;
/// "The program's card table has 65,536 bytes".
pub const PROGRAM_TABLE: usize = 65_536;

/// "number and text line from 1 (0 for 9); a missing line is the one after the last".
#[derive(Clone, Copy, Debug, PartialEq, Eq)]
pub struct TextRefusal {
    pub number: u8,
    pub line: usize,
}

/// Opens a text of either edition: the formula, or the first fault with its line.
pub fn open(text: &[u8], options: &Options) -> Result<Formula, TextRefusal> {
    editions::open(text, Reads::Both, options, None)
}

/// What the program `card` prints for a text.
pub fn card_program(text: &[u8], options: &Options) -> String {
    let formula = match open(text, options) {
        Ok(formula) => formula,
        Err(refused) => return format!("(refused {} {})\n", refused.number, refused.line),
    };
    let answer = Solver::opened(formula.clone(), *options).call(&Call::Card(PROGRAM_TABLE));
    print_program(&formula, &answer)
}

/// A card as the program prints it, or its refusal; "and prints only `(refused 34 0)` when stopped", which it
/// never is.
fn print_program(formula: &Formula, answer: &Answer) -> String {
    match answer.said {
        Said::Lines(count) => print_card("card", formula, count, &answer.table, answer.visits),
        Said::Refused(number) => format!("(refused {number} 0)\n"),
        _ => unreachable!("a card returns lines or a refusal"),
    }
}

/// "The card's own edition, always 1, then each line's set flags in place order, then visits".
/// `word` is that of its kind, `card` or `keep-card`.
pub fn print_card(
    word: &str,
    formula: &Formula,
    count: usize,
    table: &[u8],
    visits: u64,
) -> String {
    let free_count = formula.free_count();
    let mut text = format!("({word} 1)\n");
    for line in 0..count {
        text.push_str("(line");
        let bytes = table.iter().skip(line * free_count).take(free_count);
        for (variable, byte) in formula.prefix.iter().zip(bytes) {
            match byte {
                1 => text.push_str(&format!(" (no {})", variable.number)),
                2 => text.push_str(&format!(" {}", variable.number)),
                _ => {}
            }
        }
        text.push_str(")\n");
    }
    text + &format!("(visits {visits})\n(end)\n")
}

#[cfg(test)]
mod tests {
    use super::*;

    #[test]
    fn stopped_card() {
        let options = Options::paper();
        let text = b"(book 1)\n(flags 1)\n(exists 2)\n(rule 2)\n(rule (no 2))\n(end)\n";
        let formula = open(text, &options).expect("a book");
        let card = |ceiling| {
            let mut solver = Solver::opened(formula.clone(), options);
            print_program(&formula, &solver.call_within(&Call::Card(PROGRAM_TABLE), ceiling))
        };
        assert_eq!(card(3), "(refused 34 0)\n");
        assert_eq!(card(4), card_program(text, &options));
    }
}

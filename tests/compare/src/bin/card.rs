//! The program `card` of this implementation: a book on standard input, its card on standard
//! output.

use compare::cases::Program;
use compare::limits::of_this_program;
use compare::text::{card_program, LARGEST_TEXT};
use compare::Options;
use std::io::{self, Read, Write};

fn main() -> io::Result<()> {
    let Some(limits) = of_this_program(Program::Card) else { return Ok(()) };
    let mut text = vec![];
    io::stdin().lock().take(LARGEST_TEXT as u64 + 1).read_to_end(&mut text)?;
    io::stdout().write_all(card_program(&text, &Options::with(limits)).as_bytes())
}

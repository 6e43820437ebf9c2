//! The program `tag` of this implementation: a book of edition 1 on standard input, the same book in edition 2 on standard output.

use compare::cases::Program;
use compare::editions::tag_program;
use compare::limits::of_this_program;
use compare::text::LARGEST_TEXT;
use compare::Options;
use std::io::{self, Read, Write};

fn main() -> io::Result<()> {
    let Some(limits) = of_this_program(Program::Tag) else { return Ok(()) };
    let mut text = vec![];
    io::stdin().lock().take(LARGEST_TEXT as u64 + 1).read_to_end(&mut text)?;
    io::stdout().write_all(&tag_program(&text, &Options::with(limits), None))
}

//! The program `untag` of this implementation: a book of edition 2 on standard input, the same book in edition 1 on standard output.

use compare::cases::Program;
use compare::editions::untag_program;
use compare::limits::of_this_program;
use compare::text::LARGEST_TEXT;
use compare::Options;
use std::io::{self, Read, Write};

fn main() -> io::Result<()> {
    let Some(limits) = of_this_program(Program::Untag) else { return Ok(()) };
    let mut text = vec![];
    io::stdin().lock().take(LARGEST_TEXT as u64 + 1).read_to_end(&mut text)?;
    io::stdout().write_all(&untag_program(&text, &Options::with(limits), None))
}

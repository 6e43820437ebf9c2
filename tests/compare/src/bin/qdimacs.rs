//! The program `qdimacs` of this implementation: a QDIMACS text on standard input, the same book in our
//! own text on standard output.

use compare::cases::Program;
use compare::limits::of_this_program;
use compare::qdimacs::program;
use compare::text::LARGEST_TEXT;
use compare::Options;
use std::io::{self, Read, Write};

fn main() -> io::Result<()> {
    let Some(limits) = of_this_program(Program::Qdimacs) else { return Ok(()) };
    let mut text = vec![];
    io::stdin().lock().take(LARGEST_TEXT as u64 + 1).read_to_end(&mut text)?;
    io::stdout().write_all(program(&text, &Options::with(limits), None).as_bytes())
}

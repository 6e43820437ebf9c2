//! The program `session` of this implementation: a book and calls on standard input, their
//! answers on standard output.

use compare::cases::Program;
use compare::limits::of_this_program;
use compare::{session, Options};
use std::io;

fn main() -> io::Result<()> {
    let Some(limits) = of_this_program(Program::Session) else { return Ok(()) };
    session::run(io::stdin().lock(), io::stdout().lock(), &Options::with(limits))
}

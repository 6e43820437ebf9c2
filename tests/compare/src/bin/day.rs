//! The program `day` of this implementation: a total, books and calls at places on standard input, the answers on
//! standard output.

use compare::day::program;
use std::io;

fn main() -> io::Result<()> {
    program::run(io::stdin().lock(), io::stdout().lock(), None)
}

//! `programs FOLDER [SEED [SECONDS [PROGRAM..]]]`: the programs of a folder against this implementation on random
//! inputs. Each has to print the same bytes; of a usage line only its first word is compared. It ends with 1 at the first
//! difference, which it leaves as `drawn.args`, `drawn.in`, `drawn.expected` and `drawn.found` in the present folder.

use compare::cases::{Program, StoredCase};
use compare::draw::inputs::draw;
use compare::draw::on_a_large_stack;
use compare::random::Random;
use compare::Options;
use std::io::{self, Write};
use std::path::Path;
use std::process::{exit, Command, Stdio};
use std::time::{Duration, Instant};
use std::{fs, thread};

fn main() -> io::Result<()> {
    let arguments: Vec<String> = std::env::args().skip(1).collect();
    let number = |index: usize, usual: u64| {
        arguments.get(index).and_then(|word| word.parse().ok()).unwrap_or(usual)
    };
    let folder = Path::new(arguments.first().map_or("target/bin", String::as_str));
    let (seed, seconds) = (number(1, 1), number(2, 30));
    let wanted = arguments.get(3..).unwrap_or_default();
    let is_wanted =
        |program: &Program| wanted.is_empty() || wanted.iter().any(|name| name == program.name());
    let there = |program: &Program| folder.join(program.name()).exists() && is_wanted(program);
    let programs: Vec<Program> = Program::ALL.into_iter().filter(there).collect();
    let mut counts = vec![0; programs.len()];
    let (start, limit) = (Instant::now(), Duration::from_secs(seconds));
    for index in 0.. {
        if start.elapsed() >= limit || programs.is_empty() {
            break;
        }
        let turn = index % programs.len();
        let random = &mut Random::new(seed.wrapping_mul(0x9E37_79B9) ^ index as u64);
        let case = draw(programs[turn], random);
        let expected = on_a_large_stack(|| case.printed(&Options::paper()));
        let found = run(folder, &case)?;
        if shown(&expected) != shown(&found) {
            leave(&case, &expected, &found)?;
            println!("{}: input {index} of seed {seed} differs", case.program.name());
            exit(1);
        }
        counts[turn] += 1;
    }
    for (program, count) in programs.iter().zip(counts) {
        println!("{}: {count} inputs, no difference", program.name());
    }
    Ok(())
}

/// What a program prints for an input, of which it need not read all.
fn run(folder: &Path, case: &StoredCase) -> io::Result<Vec<u8>> {
    let mut child = Command::new(folder.join(case.program.name()))
        .args(&case.arguments)
        .stdin(Stdio::piped())
        .stdout(Stdio::piped())
        .spawn()?;
    let mut input = child.stdin.take().expect("a pipe");
    let bytes = case.input.clone();
    let writer = thread::spawn(move || input.write_all(&bytes));
    let output = child.wait_with_output()?;
    let _ = writer.join();
    Ok(output.stdout)
}

fn shown(printed: &[u8]) -> &[u8] {
    let usage =
        printed.starts_with(b"usage:") && printed.iter().filter(|b| **b == b'\n').count() == 1;
    if usage {
        b"usage:"
    } else {
        printed
    }
}

fn leave(case: &StoredCase, expected: &[u8], found: &[u8]) -> io::Result<()> {
    let arguments: String = case.arguments.iter().map(|word| format!("{word}\n")).collect();
    fs::write("drawn.args", arguments)?;
    fs::write("drawn.in", &case.input)?;
    fs::write("drawn.expected", expected)?;
    fs::write("drawn.found", found)
}

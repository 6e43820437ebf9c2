//! The stored cases of `tests/cases` and the books of `examples`, with what each is expected to
//! print.

use crate::limits::{self, LimitSlip};
use crate::options::{Limits, Options};
use crate::page::pages_program;
use crate::{day, editions, qdimacs, session, text};
use std::path::{Path, PathBuf};
use std::process::Command;
use std::{fs, io};

#[derive(Clone, Copy, Debug, PartialEq, Eq)]
pub enum Program {
    Card,
    Session,
    Pages,
    Qdimacs,
    Tag,
    Untag,
    Day,
}

impl Program {
    pub const ALL: [Program; 7] = [
        Program::Card,
        Program::Session,
        Program::Pages,
        Program::Qdimacs,
        Program::Tag,
        Program::Untag,
        Program::Day,
    ];

    /// Those that take limits as arguments: "every program but `day`".
    pub const LIMITED: [Program; 6] = [
        Program::Card,
        Program::Session,
        Program::Pages,
        Program::Qdimacs,
        Program::Tag,
        Program::Untag,
    ];

    /// Its name, and that of the folder of its cases.
    pub fn name(self) -> &'static str {
        match self {
            Program::Card => "card",
            Program::Session => "session",
            Program::Pages => "pages",
            Program::Qdimacs => "qdimacs",
            Program::Tag => "tag",
            Program::Untag => "untag",
            Program::Day => "day",
        }
    }
}

#[derive(Clone, Debug)]
pub struct StoredCase {
    pub name: String,
    pub program: Program,
    /// What the program is started with: limits, or what is none.
    pub arguments: Vec<String>,
    pub input: Vec<u8>,
    pub expected: Vec<u8>,
}

/// A folder of the repository.
fn folder(path: &str) -> PathBuf {
    Path::new(env!("CARGO_MANIFEST_DIR")).join("../..").join(path)
}

/// Every case of a program, by name.
pub fn stored(program: Program) -> io::Result<Vec<StoredCase>> {
    let folder = folder("tests/cases").join(program.name());
    read_all(&folder, program, "in", "out")
}

/// The cases of a program that is started with arguments; their names begin with the folder's.
pub fn limited(program: Program) -> io::Result<Vec<StoredCase>> {
    let folder = folder("tests/cases").join(program.name()).join("limits");
    let mut cases = read_all(&folder, program, "in", "out")?;
    for case in &mut cases {
        let arguments = fs::read_to_string(folder.join(format!("{}.args", case.name)))?;
        case.arguments = arguments.lines().map(str::to_owned).collect();
        case.name = format!("limits/{}", case.name);
    }
    Ok(cases)
}

/// The books of `examples` with their cards.
pub fn examples() -> io::Result<Vec<StoredCase>> {
    read_all(&folder("examples"), Program::Card, "book", "card")
}

/// Sessions on formulas of the source documents; expected are verdicts without visits.
pub fn vectors() -> io::Result<Vec<StoredCase>> {
    read_all(&folder("tests/cases/vectors"), Program::Session, "in", "verdicts")
}

fn read_all(
    folder: &Path,
    program: Program,
    input: &str,
    expected: &str,
) -> io::Result<Vec<StoredCase>> {
    let mut names = vec![];
    for entry in fs::read_dir(folder)? {
        let name = entry?.file_name().into_string().expect("names of cases are ASCII");
        let stem = name.strip_suffix(".sh").unwrap_or(&name);
        names.extend(stem.strip_suffix(&format!(".{input}")).map(str::to_owned));
    }
    names.sort();
    let case = |name: String| {
        let input = contents(folder, &format!("{name}.{input}"))?;
        let expected = contents(folder, &format!("{name}.{expected}"))?;
        Ok(StoredCase { name, program, arguments: vec![], input, expected })
    };
    names.into_iter().map(case).collect()
}

/// A stored file, or what the script in its place prints.
fn contents(folder: &Path, name: &str) -> io::Result<Vec<u8>> {
    let script = folder.join(format!("{name}.sh"));
    if !script.exists() {
        return fs::read(folder.join(name));
    }
    let output = Command::new("sh").arg(&script).output()?;
    assert!(output.status.success(), "{} ends with {}", script.display(), output.status);
    Ok(output.stdout)
}

impl StoredCase {
    /// The limits that it is started with, not capped yet; none where the usage is printed.
    pub fn given(&self, slip: Option<LimitSlip>) -> Option<(usize, usize)> {
        limits::arguments(&self.arguments, slip)
    }

    /// What this implementation prints.
    pub fn printed(&self, options: &Options) -> Vec<u8> {
        match self.given(options.of_limits) {
            Some((numbers, rules)) => {
                self.printed_under(&Options { limits: Limits::own(numbers, rules), ..*options })
            }
            None => limits::usage(self.program).into_bytes(),
        }
    }

    fn printed_under(&self, options: &Options) -> Vec<u8> {
        match self.program {
            Program::Card => text::card_program(&self.input, options).into_bytes(),
            Program::Pages => pages_program(&self.input, options, None),
            Program::Qdimacs => qdimacs::program(&self.input, options, None).into_bytes(),
            Program::Tag => editions::tag_program(&self.input, options, None),
            Program::Untag => editions::untag_program(&self.input, options, None),
            Program::Day => {
                let mut output = vec![];
                day::program::run(&self.input[..], &mut output, None).expect("bytes in, bytes out");
                output
            }
            Program::Session => {
                let mut output = vec![];
                session::run(&self.input[..], &mut output, options).expect("bytes in, bytes out");
                output
            }
        }
    }
}

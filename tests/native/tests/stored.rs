//! The stored cases, under the limits of their arguments, the examples and the vectors of the source documents, answered by the
//! library's calls; texts are opened and printed by the independent implementation.

use compare::cases::{self, Program, StoredCase};
use compare::text::{self, PROGRAM_TABLE};
use compare::{session, Call, Formula, Limits, Options, Said, Subject};
use native::library::Native;

/// What a case is started with; none where its usage is printed.
fn options(case: &StoredCase) -> Option<Options> {
    let given = case.given(None);
    given.map(|(numbers, rules)| Options::with(Limits::own(numbers, rules)))
}

/// The cases of a program, without and with arguments.
fn all(program: Program) -> Vec<StoredCase> {
    let stored = [cases::stored(program), cases::limited(program)];
    stored.map(|cases| cases.expect("cases can be read")).concat()
}

fn card(case: &StoredCase) -> Option<Vec<u8>> {
    let options = options(case)?;
    let formula = text::open(&case.input, &options).ok()?;
    let answer = Native::opened(formula.clone(), &options.limits).call(&Call::Card(PROGRAM_TABLE));
    let printed = match answer.said {
        Said::Lines(count) => {
            text::print_card("card", &formula, count, &answer.table, answer.visits)
        }
        said => format!("(refused {} 0)\n", if said == Said::Refused(21) { 21 } else { 0 }),
    };
    Some(printed.into_bytes())
}

fn session(case: &StoredCase) -> Option<Vec<u8>> {
    let (options, mut output) = (options(case)?, vec![]);
    let start = |formula: Formula| Native::opened(formula, &options.limits);
    session::run_on(&case.input[..], &mut output, &options, None, start)
        .expect("bytes in, bytes out");
    Some(output)
}

fn shown(bytes: &[u8]) -> String {
    String::from_utf8_lossy(bytes).into_owned()
}

#[test]
fn cards() {
    let mut stored = all(Program::Card);
    stored.extend(cases::examples().expect("cases can be read"));
    let mut opened = 0;
    for case in &stored {
        let Some(printed) = card(case) else { continue };
        assert!(printed == case.expected, "{}: {}", case.name, shown(&printed));
        opened += 1;
    }
    assert!(opened > 40, "only {opened} books");
}

#[test]
fn sessions() {
    let stored = all(Program::Session);
    for case in &stored {
        let Some(printed) = session(case) else { continue };
        assert!(printed == case.expected, "{}: {}", case.name, shown(&printed));
    }
    assert!(stored.len() >= 170, "only {} sessions", stored.len());
}

/// A document gives a verdict and no visits.
#[test]
fn vectors() {
    let stored = cases::vectors().expect("vectors can be read");
    for case in &stored {
        let printed = shown(&session(case).expect("no arguments"));
        let verdict = |line: &str| {
            let word = line.strip_prefix('(').and_then(|rest| rest.split_once(" (visits "));
            word.map_or(line, |(word, _)| word).to_owned() + "\n"
        };
        let verdicts: String = printed.lines().map(verdict).collect();
        assert_eq!(verdicts, shown(&case.expected), "{}", case.name);
    }
    assert!(stored.len() >= 36, "only {} vectors", stored.len());
}

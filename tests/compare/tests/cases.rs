//! The stored cases, the examples and the vectors of the source documents, on this implementation.

use compare::cases::{self, Program, StoredCase};
use compare::{
    session, text, truth, Answer, Call, Formula, Options, PlainRun, Said, Solver, Subject,
};

fn hold(cases: Vec<StoredCase>, least: usize, printed: impl Fn(&StoredCase) -> Vec<u8>) {
    assert!(cases.len() >= least, "only {} cases", cases.len());
    for case in &cases {
        let (printed, expected) = (printed(case), &case.expected);
        let words = || format!("{:?} case {}", case.program, case.name);
        let texts = || {
            let text = |bytes| String::from_utf8_lossy(bytes).into_owned();
            (text(&printed), text(expected))
        };
        assert!(printed == *expected, "{}: printed, expected {:#?}", words(), texts());
    }
}

fn as_printed(case: &StoredCase) -> Vec<u8> {
    case.printed(&Options::paper())
}

#[test]
fn cards() {
    hold(cases::stored(Program::Card).expect("cases can be read"), 190, as_printed);
}

#[test]
fn sessions() {
    hold(cases::stored(Program::Session).expect("cases can be read"), 210, as_printed);
}

#[test]
fn pages() {
    hold(cases::stored(Program::Pages).expect("cases can be read"), 14, as_printed);
}

#[test]
fn books_that_come_as_qdimacs() {
    hold(cases::stored(Program::Qdimacs).expect("cases can be read"), 100, as_printed);
}

#[test]
fn books_converted() {
    hold(cases::stored(Program::Tag).expect("cases can be read"), 20, as_printed);
    hold(cases::stored(Program::Untag).expect("cases can be read"), 25, as_printed);
}

#[test]
fn days() {
    hold(cases::stored(Program::Day).expect("cases can be read"), 32, as_printed);
}

/// Programs that are started with the limits of their books, or with what is none.
#[test]
fn own_limits() {
    let least = [40, 16, 5, 19, 7, 6];
    for (program, least) in Program::LIMITED.into_iter().zip(least) {
        hold(cases::limited(program).expect("cases can be read"), least, as_printed);
    }
}

#[test]
fn examples() {
    hold(cases::examples().expect("examples can be read"), 4, as_printed);
}

/// Demand 2 on the examples: a reading lies on a line, and on one only, exactly when it is true.
/// The largest book has too many assignments to evaluate them all.
#[test]
fn lines_of_the_examples_are_true() {
    let options = Options::paper();
    for case in cases::examples().expect("examples can be read") {
        let formula = text::open(&case.input, &options).expect("an example opens");
        if formula.prefix.len() > 30 {
            continue;
        }
        let free_count = formula.free_count();
        let answer = Solver::opened(formula.clone(), options).call(&Call::Card(1 << 16));
        let Said::Lines(count) = answer.said else { panic!("{}: {answer}", case.name) };
        for reading in 0..1usize << free_count {
            let mut values: Vec<bool> =
                (0..free_count).map(|bit| reading >> bit & 1 == 1).collect();
            let agrees = |line: &&[u8]| {
                line.iter().zip(&values).all(|(byte, on)| [0, 1 + u8::from(*on)].contains(byte))
            };
            let on_lines = answer.table.chunks(free_count).take(count).filter(agrees).count();
            let is_true = truth::holds(&formula, &mut values);
            assert_eq!(on_lines, usize::from(is_true), "{}: {values:?}", case.name);
        }
    }
}

/// "(swap (visits 3))" as "swap": a document gives a verdict and no visits.
fn verdicts(case: &StoredCase) -> Vec<u8> {
    let printed = String::from_utf8(as_printed(case)).expect("answers are ASCII");
    let verdict = |line: &str| {
        let word = line.strip_prefix('(').and_then(|rest| rest.split_once(" (visits "));
        word.map_or(line, |(word, _)| word).to_owned() + "\n"
    };
    printed.lines().map(verdict).collect::<String>().into_bytes()
}

#[test]
fn vectors() {
    hold(cases::vectors().expect("vectors can be read"), 36, verdicts);
}

/// A session's calls, answered by the plain run as well.
struct BesidePlain {
    solver: Solver,
    plain: PlainRun,
}

impl Subject for BesidePlain {
    /// "only a stopped call's answer is not compared with it, its visits still are".
    fn call_within(&mut self, call: &Call, ceiling: u32) -> Answer {
        let (answer, plain) = (self.solver.call_within(call, ceiling), self.plain.call(call));
        assert!(answer.visits <= plain.visits, "{call}: {} visits", answer.visits);
        match answer.said {
            Said::Refused(34) => assert!(plain.visits > ceiling.into(), "{call}"),
            _ => assert!(answer.same_reply(&plain), "{call}: {answer}; plain run: {plain}"),
        }
        answer
    }
}

/// Demand 3 on the stored sessions: the plain run answers them alike, but for its visits.
#[test]
fn sessions_of_the_plain_run() {
    let options = Options::paper();
    for case in cases::stored(Program::Session).expect("cases can be read") {
        let mut output = vec![];
        let start = |formula: Formula| BesidePlain {
            plain: PlainRun::new(formula.clone(), options.limits),
            solver: Solver::opened(formula, options),
        };
        session::run_on(&case.input[..], &mut output, &options, None, start)
            .expect("bytes in and out");
        assert!(output == case.expected, "{}", case.name);
    }
}

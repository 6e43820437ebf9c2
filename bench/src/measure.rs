//! Times of one book: the three sides by turns, the shortest run of each.

use crate::raw::{self, Raw};
use crate::search::{card, query, Design};
use compare::random::Random;
use compare::slices::Slices;
use compare::solver::start_node;
use compare::{Formula, Limits, Reading, State, Store, HIGHEST_CEILING};
use native::budget::{self, Walk};
use native::exports::{bare, Reply, SWAP};
use std::time::Duration;

/// "The program's card table has 65,536 bytes".
const TABLE: usize = 65_536;
const QUERIES: usize = 200;
/// The plain search is counted up to so many visits.
const PLAIN: u64 = 150_000_000;

#[derive(Clone, Copy, Debug, PartialEq, Eq)]
pub enum Task {
    /// One card on a fresh book.
    Card,
    /// Queries of random readings, one after another on one book.
    Queries,
}

#[derive(Clone, Debug)]
pub struct Times {
    pub task: Task,
    pub lines: usize,
    pub visits: u64,
    pub plain_visits: Option<u64>,
    pub library: Duration,
    /// The straightforward design in Rust, and the library's.
    pub scan: Duration,
    pub index: Duration,
}

impl Times {
    /// How many times faster than the straightforward design.
    pub fn gain(&self) -> f64 {
        self.scan.as_secs_f64() / self.library.as_secs_f64()
    }

    /// The library's time to that of its own design in Rust.
    pub fn ratio(&self) -> f64 {
        self.library.as_secs_f64() / self.index.as_secs_f64()
    }

    pub fn library_ns(&self) -> f64 {
        self.a_visit(self.library)
    }

    pub fn scan_ns(&self) -> f64 {
        self.a_visit(self.scan)
    }

    pub fn index_ns(&self) -> f64 {
        self.a_visit(self.index)
    }

    fn a_visit(&self, time: Duration) -> f64 {
        time.as_nanos() as f64 / self.visits as f64
    }
}

/// What a run found. All sides have to find the same.
#[derive(PartialEq, Eq, Debug)]
struct Found {
    lines: usize,
    visits: u64,
    table: Vec<u8>,
    verdicts: Vec<bool>,
}

/// A freshly opened formula, as the calls in Rust have it and as the library does, under 40 and 255.
fn states(formula: &Formula) -> (Box<Raw>, Slices) {
    let state = State { formula: formula.clone(), store: Store::default() };
    (raw::write(&state), Slices::written(&state, &Limits::PAPER, || 0))
}

pub fn measure(formula: &Formula, task: Task) -> Times {
    let (raw, slices) = states(formula);
    let readings = readings(formula);
    let (mut library, mut scan, mut index) = (Duration::MAX, Duration::MAX, Duration::MAX);
    let mut spent = Duration::ZERO;
    let mut runs = 0;
    let found = loop {
        let (expected, time) = run_rust(&raw, task, &readings, Design::Scan);
        scan = scan.min(time);
        spent += time;
        let (same, time) = run_rust(&raw, task, &readings, Design::Index);
        index = index.min(time);
        spent += time;
        let (found, time) = run_library(&slices, task, &readings);
        library = library.min(time);
        spent += time;
        runs += 1;
        assert!(found == expected && found == same, "the sides differ");
        if runs >= 3 && spent > Duration::from_secs(1) || runs == 500 {
            break found;
        }
    };
    let plain_visits = plain_visits(formula, task, &readings);
    Times { task, lines: found.lines, visits: found.visits, plain_visits, library, scan, index }
}

fn run_rust(raw: &Raw, task: Task, readings: &[Reading], design: Design) -> (Found, Duration) {
    let mut raw = Box::new(*raw);
    let mut found = Found { lines: 0, visits: 0, table: vec![9; TABLE], verdicts: vec![] };
    let start = cpu_time();
    match task {
        Task::Card => {
            let (lines, visits) = card(&mut raw, &mut found.table, design);
            (found.lines, found.visits) = (lines.expect("the table is large enough"), visits);
        }
        Task::Queries => {
            for reading in readings {
                let (yes, visits) = query(&mut raw, &reading.on, design);
                found.verdicts.push(yes);
                found.visits += visits;
            }
        }
    }
    (found, cpu_time() - start)
}

fn run_library(slices: &Slices, task: Task, readings: &[Reading]) -> (Found, Duration) {
    let mut slices = slices.clone();
    let mut found = Found { lines: 0, visits: 0, table: vec![9; TABLE], verdicts: vec![] };
    let start = cpu_time();
    match task {
        Task::Card => {
            let reply = bare::card(&mut slices, &mut found.table, HIGHEST_CEILING);
            assert_eq!(reply.refusal, 0, "the table is large enough");
            (found.lines, found.visits) = (reply.lines, reply.visits);
        }
        Task::Queries => {
            for reading in readings {
                let reply = bare::query(&mut slices, reading, HIGHEST_CEILING);
                found.verdicts.push(reply.verdict == SWAP);
                found.visits += reply.visits;
            }
        }
    }
    (found, cpu_time() - start)
}

/// What a call takes by itself.
pub struct CallTimes {
    /// A query that its start node decides.
    pub query: Duration,
    /// The state is checked.
    pub forget: Duration,
}

pub fn call_times(formula: &Formula) -> CallTimes {
    let (_, slices) = states(formula);
    let readings = readings(formula);
    let decided =
        |reading: &&Reading| bare::query(&mut slices.clone(), reading, HIGHEST_CEILING).visits == 1;
    let decided = readings.iter().find(decided).expect("a reading that the start node decides");
    CallTimes {
        query: call_time(&slices, |slices| bare::query(slices, decided, HIGHEST_CEILING)),
        forget: call_time(&slices, bare::forget),
    }
}

fn call_time(slices: &Slices, call: impl Fn(&mut Slices) -> Reply) -> Duration {
    const CALLS: u32 = 1_000;
    let mut slices = slices.clone();
    let mut least = Duration::MAX;
    for _ in 0..20 {
        let start = cpu_time();
        for _ in 0..CALLS {
            assert_eq!(call(&mut slices).refusal, 0, "nothing is refused");
        }
        least = least.min((cpu_time() - start) / CALLS);
    }
    least
}

/// Full readings: every flag is on or off.
pub fn readings(formula: &Formula) -> Vec<Reading> {
    let mut random = Random::new(formula.clauses.len() as u64);
    let free = &formula.prefix[..formula.free_count()];
    let mut on = || free.iter().map(|v| v.number).filter(|_| random.one_in(2)).collect::<Vec<_>>();
    (0..QUERIES).map(|_| Reading::full(formula, &on())).collect()
}

fn plain_visits(formula: &Formula, task: Task, readings: &[Reading]) -> Option<u64> {
    let plain = |start: &[bool]| budget::visits(formula, start, Walk::Plain, PLAIN);
    match task {
        Task::Card => plain(&[]),
        Task::Queries => readings.iter().map(|reading| plain(&start_node(formula, reading))).sum(),
    }
}

/// The time that this thread has run: others on the machine do not count.
pub(crate) fn cpu_time() -> Duration {
    #[repr(C)]
    struct Timespec {
        seconds: i64,
        nanoseconds: i64,
    }
    extern "C" {
        fn clock_gettime(clock: i32, time: *mut Timespec) -> i32;
    }
    const THREAD: i32 = 3;
    let mut time = Timespec { seconds: 0, nanoseconds: 0 };
    let failed = unsafe { clock_gettime(THREAD, &mut time) };
    assert_eq!(failed, 0, "the clock of this thread can be read");
    Duration::new(time.seconds as u64, time.nanoseconds as u32)
}

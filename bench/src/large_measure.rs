//! Times of books of up to 1,000 variables on states in two slices: each side by turns, the shortest run of each. All
//! sides have to give the same replies, lines and cells.

use crate::books::Book;
use crate::large::{self, Reply};
use crate::measure::{cpu_time, readings};
use crate::plot::grouped;
use crate::report::milliseconds;
use compare::slices::Slices;
use compare::{Limits, Reading, State, Store};
use native::exports::{self, bare, SWAP};
use std::time::Duration;

const TABLE: usize = 65_536;
/// A card that needs more visits is stopped there, and a query.
const CARD_CEILING: u32 = 1_000_000;
const QUERY_CEILING: u32 = 20_000;

/// What answers the calls in a state's slices.
pub struct Side {
    pub name: &'static str,
    pub card: fn(&mut Slices, &mut [u8], u32) -> Reply,
    /// The flags of a full reading that are on.
    pub query: fn(&mut Slices, &Reading, u32) -> Reply,
}

pub const SIDES: [Side; 2] = [
    Side {
        name: "Library",
        card: |slices, table, ceiling| told(bare::card(slices, table, ceiling)),
        query: |slices, reading, ceiling| told(bare::query(slices, reading, ceiling)),
    },
    Side {
        name: "Rust",
        card: large::card,
        query: |slices, reading, ceiling| large::query(slices, &reading.on, ceiling),
    },
];

/// The library's reply.
fn told(reply: exports::Reply) -> Reply {
    let exports::Reply { refusal, verdict, lines, visits } = reply;
    Reply { refusal, yes: verdict == SWAP, lines, visits }
}

#[derive(Clone, Copy, Debug, PartialEq, Eq)]
enum Task {
    Card,
    Queries,
}

#[derive(PartialEq, Eq)]
struct Found {
    replies: Vec<Reply>,
    table: Vec<u8>,
    slices: Slices,
}

pub fn table(books: &[Book]) -> String {
    let mut text = String::from("| Book | Rules | Call | Lines | Visits |");
    SIDES.iter().for_each(|side| text += &format!(" {} | ns a visit |", side.name));
    text += "\n|---|---|---|---|---|";
    SIDES.iter().for_each(|_| text += "---|---|");
    text += "\n";
    for book in books {
        for task in [Task::Card, Task::Queries] {
            let row = row(book, task);
            print!("{row}");
            text += &row;
        }
    }
    text
}

fn row(book: &Book, task: Task) -> String {
    let (found, times) = measure(book, task);
    let visits = found.replies.iter().map(|reply| reply.visits).sum::<u64>();
    let (call, lines) = match (task, found.replies[0].refusal) {
        (Task::Card, 0) => ("card", grouped(found.replies[0].lines as u64)),
        (Task::Card, _) => ("card, stopped", "-".into()),
        (Task::Queries, _) => ("200 queries", "-".into()),
    };
    let mut row = format!("| {} | {} | {call} | {lines} ", book.name, book.formula.clauses.len());
    row += &format!("| {} |", grouped(visits));
    for time in times {
        let nanoseconds = time.as_nanos() as f64 / visits as f64;
        row += &format!(" {} | {nanoseconds:.0} |", milliseconds(time));
    }
    row + "\n"
}

fn measure(book: &Book, task: Task) -> (Found, [Duration; SIDES.len()]) {
    let state = State { formula: book.formula.clone(), store: Store::default() };
    let limits = Limits::own(book.formula.prefix.len(), book.formula.clauses.len());
    let slices = Slices::written(&state, &limits, || 0);
    let readings = readings(&book.formula);
    let mut times = [Duration::MAX; SIDES.len()];
    let (mut spent, mut runs) = (Duration::ZERO, 0);
    loop {
        let mut first: Option<Found> = None;
        for (side, least) in SIDES.iter().zip(&mut times) {
            let (found, time) = run(side, &slices, task, &readings);
            *least = time.min(*least);
            spent += time;
            match &first {
                None => first = Some(found),
                Some(first) => assert!(*first == found, "{}: the sides differ", side.name),
            }
        }
        runs += 1;
        if runs >= 3 && spent > Duration::from_secs(1) || runs == 200 {
            return (first.expect("a side"), times);
        }
    }
}

fn run(side: &Side, slices: &Slices, task: Task, readings: &[Reading]) -> (Found, Duration) {
    let mut found = Found { replies: vec![], table: vec![9; TABLE], slices: slices.clone() };
    let Found { replies, table, slices } = &mut found;
    let start = cpu_time();
    match task {
        Task::Card => replies.push((side.card)(slices, table, CARD_CEILING)),
        Task::Queries => {
            for reading in readings {
                replies.push((side.query)(slices, reading, QUERY_CEILING));
            }
        }
    }
    (found, cpu_time() - start)
}

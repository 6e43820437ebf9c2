//! `bench`: measures and writes docs/BENCHMARKS.md and docs/benchmarks.svg. `bench --card NAME`
//! makes one card of an example by the library alone, `bench --card NAME scan` or `index` by a design
//! in Rust alone, for a tool that counts instructions. `bench --calls` measures calls by themselves and
//! writes nothing; `bench --large` measures books of up to 1,000 variables. `bench --books FOLDER` writes the books, each with its list of queries, for other programs.

use bench::books::{self, formula, Book, Order, Plan};
use bench::large_books;
use bench::large_measure;
use bench::measure::{call_times, measure, readings, Task, Times};
use bench::plot::{svg, Panel, Series};
use bench::raw;
use bench::report::{self, HEADS};
use bench::search::{card, Design};
use compare::slices::Slices;
use compare::{write, Limits, Options, State, Store, HIGHEST_CEILING};
use native::exports::bare;
use std::path::Path;
use std::{fs, io};

fn main() -> io::Result<()> {
    let arguments: Vec<String> = std::env::args().skip(1).collect();
    match &arguments[..] {
        [] => run(),
        [flag, name] if flag == "--card" => one_card(name, None),
        [flag, name, side] if flag == "--card" && side == "scan" => {
            one_card(name, Some(Design::Scan))
        }
        [flag, name, side] if flag == "--card" && side == "index" => {
            one_card(name, Some(Design::Index))
        }
        [flag] if flag == "--calls" => {
            print!("{}", calls()?);
            Ok(())
        }
        [flag] if flag == "--large" => {
            large_measure::table(&large_books::all());
            Ok(())
        }
        [flag, folder] if flag == "--books" => write_books(Path::new(folder)),
        _ => Err(io::Error::other(
            "bench [--calls | --large | --card NAME [scan|index] | --books FOLDER]",
        )),
    }
}

fn one_card(name: &str, rust: Option<Design>) -> io::Result<()> {
    let book = books::examples()?.into_iter().find(|book| book.name.contains(name));
    let formula = book.ok_or(io::Error::other("no such example"))?.formula;
    let mut table = [0; 65_536];
    let state = State { formula, store: Store::default() };
    let (lines, visits) = match rust {
        Some(design) => {
            let (lines, visits) = card(&mut raw::write(&state), &mut table, design);
            (lines.unwrap_or(0), visits)
        }
        None => {
            let mut slices = Slices::written(&state, &Limits::PAPER, || 0);
            let reply = bare::card(&mut slices, &mut table, HIGHEST_CEILING);
            (reply.lines, reply.visits)
        }
    };
    println!("lines {lines}, visits {visits}");
    Ok(())
}

/// Each book in our own text, its queries behind it.
fn write_books(folder: &Path) -> io::Result<()> {
    for (index, book) in workshop().into_iter().chain(books::examples()?).enumerate() {
        let mut text = write::text(&book.formula, &Options::paper());
        for reading in readings(&book.formula) {
            let on: String = reading.on.iter().map(|number| format!(" {number}")).collect();
            let off: String = reading.off.iter().map(|number| format!(" (no {number})")).collect();
            text += &format!("(query{on}{off})\n");
        }
        let name = book.name.replace("examples/", "").replace(".book", "").replace(", ", "_");
        fs::write(folder.join(format!("{index:02}_{}.book", name.replace(' ', "_"))), text)?;
    }
    Ok(())
}

fn run() -> io::Result<()> {
    let load = report::load();
    let mut all = vec![];
    let mut table = String::from(HEADS);
    let mut add = |book: &Book, task: Task, table: &mut String| {
        let times = measure(&book.formula, task);
        let row = report::row(book, &times);
        print!("{row}");
        table.push_str(&row);
        all.push(times.clone());
        times
    };
    for book in workshop().into_iter().chain(books::examples()?) {
        for task in [Task::Card, Task::Queries] {
            add(&book, task, &mut table);
        }
    }
    let mut panels = vec![];
    for sweep in sweeps() {
        let mut measured = vec![];
        for (value, book) in sweep.books() {
            measured.push((value as f64, add(&book, Task::Card, &mut table)));
        }
        panels.push(panel(&sweep, &measured));
    }
    let ratios = |task, of| report::ratios(&all, task, of);
    let gains = (ratios(Task::Card, Times::gain), ratios(Task::Queries, Times::gain));
    let designs = (ratios(Task::Card, Times::ratio), ratios(Task::Queries, Times::ratio));
    let after = report::load();
    let words = format!(
        "Times of the thread, the shortest of at least 3 runs; {load} before, {after} after.\n\
         Times faster than the straightforward design in Rust, geometric mean with the least and the \
         largest: cards {}, lists of 200 queries {}.\n\
         Library to the same design in Rust: cards {}, lists of 200 queries {}.\n\n",
        gains.0, gains.1, designs.0, designs.1
    );
    let calls = calls()?;
    print!("{words}{calls}");
    report::write(&(words + &table), &calls, &svg(&panels))
}

/// Calls by themselves, on the smallest example and on the largest.
fn calls() -> io::Result<String> {
    let mut books = books::examples()?;
    books.retain(|book| {
        ["a.book", "parlour_board.book"].iter().any(|name| book.name.ends_with(name))
    });
    let measured: Vec<_> = books
        .into_iter()
        .map(|book| {
            let times = call_times(&book.formula);
            (book, times)
        })
        .collect();
    Ok(report::calls(&measured))
}

fn plan(flags: usize, loads: usize, faults: usize, rules: usize, literals: (usize, usize)) -> Plan {
    Plan { flags, loads, faults, rules, literals, order: Order::LoadsFirst }
}

/// From a small board to the largest that a book can hold, with loads before faults and the other
/// way round; then rules of 16 literals.
fn workshop() -> Vec<Book> {
    let sizes = [
        plan(8, 5, 5, 40, (3, 6)),
        plan(10, 6, 7, 80, (4, 7)),
        plan(12, 7, 9, 120, (4, 8)),
        plan(14, 8, 11, 180, (5, 8)),
        plan(16, 10, 14, 255, (5, 9)),
        plan(16, 8, 8, 120, (5, 8)),
        plan(16, 8, 9, 150, (5, 8)),
        plan(12, 6, 10, 100, (16, 16)),
        plan(14, 6, 9, 255, (16, 16)),
    ];
    let both = |plan: Plan| {
        [Order::LoadsFirst, Order::FaultsFirst].map(|order| Book {
            name: name(Plan { order, ..plan }),
            formula: formula(Plan { order, ..plan }),
        })
    };
    sizes.into_iter().flat_map(both).collect()
}

fn name(plan: Plan) -> String {
    let Plan { flags, loads, faults, literals: (low, high), .. } = plan;
    let groups = match plan.order {
        Order::LoadsFirst => format!("{loads} loads, {faults} faults"),
        Order::FaultsFirst => format!("{faults} faults, {loads} loads"),
    };
    let literals = if low == high { format!("{low}") } else { format!("{low} to {high}") };
    format!("{flags} flags, {groups}, rules of {literals}")
}

struct Sweep {
    title: &'static str,
    across: &'static str,
    values: &'static [usize],
    plan: fn(usize) -> Plan,
    /// Visits instead of time.
    visits: bool,
}

impl Sweep {
    fn books(&self) -> Vec<(usize, Book)> {
        let book = |&value: &usize| {
            let plan = (self.plan)(value);
            (value, Book { name: name(plan), formula: formula(plan) })
        };
        self.values.iter().map(book).collect()
    }
}

fn sweeps() -> [Sweep; 3] {
    [
        Sweep {
            title: "ns a visit",
            across: "rules of 5 to 8 literals; 12 flags, 6 loads, 9 faults",
            values: &[40, 80, 120, 160, 200, 255],
            plan: |rules| plan(12, 6, 9, rules, (5, 8)),
            visits: false,
        },
        Sweep {
            title: "ns a visit",
            across: "literals; 100 rules, 12 flags, 6 loads, 9 faults",
            values: &[4, 6, 8, 10, 12, 14, 16],
            plan: |literals| plan(12, 6, 9, 100, (literals, literals)),
            visits: false,
        },
        Sweep {
            title: "visits of a card",
            across: "flags; 100 rules of 4 to 7 literals, 6 loads, 8 faults",
            values: &[8, 10, 12, 14, 16],
            plan: |flags| plan(flags, 6, 8, 100, (4, 7)),
            visits: true,
        },
    ]
}

fn panel(sweep: &Sweep, measured: &[(f64, Times)]) -> Panel {
    let series = |name, color, of: fn(&Times) -> f64| Series {
        name,
        color,
        points: measured.iter().map(|(value, times)| (*value, of(times))).collect(),
    };
    let series = match sweep.visits {
        false => vec![
            series("library", "#1f77b4", Times::library_ns),
            series("straightforward Rust", "#d62728", Times::scan_ns),
            series("same design in Rust", "#2ca02c", Times::index_ns),
        ],
        true => vec![
            series("learning", "#1f77b4", |times| times.visits as f64),
            series("plain", "#7f7f7f", |times| times.plain_visits.unwrap_or(0) as f64),
        ],
    };
    Panel { title: sweep.title, across: sweep.across, log: sweep.visits, series }
}

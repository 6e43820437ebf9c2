//! The tables of docs/BENCHMARKS.md and the plot beside it.

use crate::books::Book;
use crate::measure::{CallTimes, Task, Times};
use crate::plot::grouped;
use std::fmt::Write;
use std::path::{Path, PathBuf};
use std::time::Duration;
use std::{fs, io};

pub const HEADS: &str = "| Book | Rules | Call | Lines | Visits | Plain visits | Library | ns a visit | Straightforward Rust | Times faster | Same design in Rust | Ratio |\n\
                         |---|---|---|---|---|---|---|---|---|---|---|---|\n";

pub fn row(book: &Book, times: &Times) -> String {
    let (call, lines) = match times.task {
        Task::Card => ("card", grouped(times.lines as u64)),
        Task::Queries => ("200 queries", "-".into()),
    };
    let plain = times.plain_visits.map_or("over 150,000,000".into(), grouped);
    let mut row = format!("| {} | {} | {call} | {lines} ", book.name, book.formula.clauses.len());
    let _ = write!(row, "| {} | {plain} ", grouped(times.visits));
    let _ = write!(row, "| {} | {:.0} ", milliseconds(times.library), times.library_ns());
    let _ = write!(row, "| {} | {:.1} ", milliseconds(times.scan), times.gain());
    let _ = writeln!(row, "| {} | {:.2} |", milliseconds(times.index), times.ratio());
    row
}

pub(crate) fn milliseconds(time: Duration) -> String {
    let milliseconds = time.as_secs_f64() * 1e3;
    match milliseconds {
        0.0..10.0 => format!("{milliseconds:.3} ms"),
        10.0..1_000.0 => format!("{milliseconds:.1} ms"),
        _ => format!("{:.2} s", milliseconds / 1e3),
    }
}

/// What a call takes by itself on each book.
pub fn calls(measured: &[(Book, CallTimes)]) -> String {
    let mut table = String::from("| Call |");
    measured.iter().for_each(|(book, _)| table += &format!(" `{}` |", book.name));
    table += "\n|---|";
    measured.iter().for_each(|_| table += "---|");
    type Of = fn(&CallTimes) -> Duration;
    let kinds: [(&str, Of); 2] =
        [("query of one visit", |times| times.query), ("forget", |times| times.forget)];
    for (name, of) in kinds {
        let _ = write!(table, "\n| {name} |");
        for (_, times) in measured {
            let _ = write!(table, " {:.2} \u{b5}s |", of(times).as_nanos() as f64 / 1e3);
        }
    }
    table + "\n"
}

fn docs() -> PathBuf {
    Path::new(env!("CARGO_MANIFEST_DIR")).join("../docs")
}

/// The geometric mean of a task's ratios, with the least and the largest.
pub fn ratios(times: &[Times], task: Task, of: fn(&Times) -> f64) -> String {
    let ratios: Vec<f64> = times.iter().filter(|t| t.task == task).map(of).collect();
    let mean = (ratios.iter().map(|ratio| ratio.ln()).sum::<f64>() / ratios.len() as f64).exp();
    let least = ratios.iter().copied().fold(f64::MAX, f64::min);
    let most = ratios.iter().copied().fold(f64::MIN, f64::max);
    format!("{mean:.2} ({least:.2} to {most:.2})")
}

/// "load average 0.50 on 2 processors".
pub fn load() -> String {
    let load = fs::read_to_string("/proc/loadavg").unwrap_or_default();
    let load = load.split(' ').next().unwrap_or_default().to_owned();
    let processors = std::thread::available_parallelism().map_or(1, usize::from);
    format!("load average {load} on {processors} processors")
}

/// Puts the tables between their markers and leaves the rest of the file as it is.
pub fn write(times: &str, calls: &str, svg: &str) -> io::Result<()> {
    let path = docs().join("BENCHMARKS.md");
    let text = fs::read_to_string(&path)?;
    let text = between(&text, "times", times)?;
    fs::write(&path, between(&text, "calls", calls)?)?;
    fs::write(docs().join("benchmarks.svg"), svg)
}

fn between(text: &str, name: &str, table: &str) -> io::Result<String> {
    let (begin, end) = (format!("<!-- {name}: begin -->\n"), format!("<!-- {name}: end -->\n"));
    let parts = text.split_once(&begin).zip(text.split_once(&end));
    let ((before, _), (_, after)) =
        parts.ok_or_else(|| io::Error::other(format!("BENCHMARKS.md has no line {begin}")))?;
    Ok(format!("{before}{begin}{table}{end}{after}"))
}

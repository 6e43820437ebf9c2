//! Lists of calls of every source, under the limits of 40 and 255 and others.

use crate::hold::hold;
use crate::input::{self, Input, Source};
use crate::shrink;
use crate::tally::Tally;

pub fn round(source: Source, seed: u64, index: u64, tally: &mut Tally) -> Result<(), String> {
    let Input { case, fault } = input::draw(source, seed, index);
    if let Some(fault) = fault {
        let well_formed = case.slices.read_well_formed().is_some();
        tally.faults.entry(format!("{fault:?}")).or_default()[usize::from(well_formed)] += 1;
    }
    let Err(first) = hold(&case, tally) else { return Ok(()) };
    let words = format!("{source:?}, seed {seed}, index {index}, call {}", first.at);
    eprintln!("{words}: {}\nmaking it smaller", first.words);
    let smallest = shrink::smallest(case);
    let said = hold(&smallest, &mut Tally::default()).err().map_or(String::new(), |d| d.words);
    Err(format!("{words}\n{smallest}{said}"))
}

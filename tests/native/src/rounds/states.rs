//! States in two slices with every fault of own limits, and books of up to nearly 1,000 variables, under limits that just hold
//! them or more.

use super::{numbers, Counts};
use crate::exports::{room, Exports};
use compare::draw::states::{options, well_formed, with_fault, Drawn, FAULTS};
use compare::draw::under_ceilings;
use compare::draw::wide::{Plan, Wide};
use compare::hold::hold;
use compare::limits::LimitSlip;
use compare::slices::Slices;
use compare::{Call, Said, Solver, State, Store};

/// Calls under their ceilings on a state.
pub struct List {
    pub slices: Slices,
    pub calls: Vec<(Call, u32)>,
}

/// A state, well formed or with a fault by turns, and calls on it.
pub fn drawn(seed: u64, index: u64, slipped: bool) -> List {
    let random = &mut numbers(seed, 8, index);
    let attempt = index as usize;
    let Drawn { slices, calls } = match attempt % 2 {
        0 => well_formed(random),
        _ => with_fault(FAULTS[attempt / 2 % FAULTS.len()], random),
    };
    let mut list = match (slices.read_well_formed(), options(&slices)) {
        (Some(state), Some(options)) => {
            under_ceilings(&calls, Solver::new(state, options), 2_000, random)
        }
        // A search on a malformed state means nothing to a slip.
        _ if slipped => vec![(Call::Forget, 0)],
        _ => calls.into_iter().map(|call| (call, 9)).collect(),
    };
    list.push((Call::Forget, 0));
    List { slices, calls: list }
}

/// A book of up to nearly 1,000 variables.
pub fn wide(seed: u64, index: u64) -> List {
    let random = &mut numbers(seed, 9, index);
    let wide = Wide::draw(Plan::of_attempt(index as usize, random), random);
    let calls: Vec<Call> = wide.calls.iter().map(|call| wide.call(call, random)).collect();
    let options = wide.options();
    let state = State { formula: wide.formula.clone(), store: Store::default() };
    let calls = under_ceilings(&calls, Solver::new(state.clone(), options), 5_000, random);
    List { slices: Slices::written(&state, &options.limits, || 0x7A7A), calls }
}

impl List {
    /// Every call on both sides; the state as it is left.
    pub fn held(&self, slip: Option<LimitSlip>, counts: &mut Counts) -> Result<Slices, String> {
        let mut slices = Slices { slip, ..self.slices.clone() };
        for (call, ceiling) in &self.calls {
            let answer = hold(&mut Exports, &mut slices, call, *ceiling)?;
            counts.answer(call, answer.said, answer.visits);
        }
        Ok(slices)
    }

    /// The same; where the sides differ, without the calls that are not needed for it.
    pub fn round(mut self, what: &'static str, counts: &mut Counts) -> Result<Slices, String> {
        counts.input(what);
        let first = match self.held(None, counts) {
            Ok(slices) => return Ok(slices),
            Err(first) => first,
        };
        eprintln!("{first}\nmaking it smaller");
        for index in (0..self.calls.len()).rev() {
            let call = self.calls.remove(index);
            // Without a rule the other calls could search for long.
            let shorter = List {
                slices: self.slices.clone(),
                calls: self.calls.iter().map(|(c, most)| (c.clone(), *most.min(&50_000))).collect(),
            };
            if shorter.held(None, &mut Counts::default()).is_ok() {
                self.calls.insert(index, call);
            }
        }
        let calls: String = self.calls.iter().map(|(c, most)| format!("  {c}, {most}\n")).collect();
        let state = self.slices.read();
        Err(format!("{first}\nlimits {:?}, {state:?}\n{calls}", self.slices.limits()))
    }
}

pub fn of_states(seed: u64, index: u64, counts: &mut Counts) -> Result<Slices, String> {
    drawn(seed, index, false).round("states under own limits", counts)
}

/// A text is never longer than the table for any text under its book's limits.
pub fn of_wide(seed: u64, index: u64, counts: &mut Counts) -> Result<Slices, String> {
    let mut slices = wide(seed, index).round("books of up to 1,000 variables", counts)?;
    let write = Call::Write(room(&slices.cells));
    let written = hold(&mut Exports, &mut slices, &write, 0)?;
    counts.answer(&write, written.said, 0);
    match written.said {
        Said::Written(_) => Ok(slices),
        _ => Err(format!("{write}: {written}")),
    }
}

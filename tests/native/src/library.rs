//! A state in two slices and the library's calls on it. Slices, table and lists are lent between guards.

use crate::exports::Exports;
use compare::hold;
use compare::slices::Slices;
use compare::{Answer, Call, Formula, Limits, State, Store, Subject};

/// "Each call takes the state that the last one returned."
#[derive(Clone, Debug)]
pub struct Native {
    pub slices: Slices,
}

impl Native {
    pub fn new(slices: Slices) -> Native {
        Native { slices }
    }

    /// A freshly opened formula under limits.
    pub fn opened(formula: Formula, limits: &Limits) -> Native {
        let state = State { formula, store: Store::default() };
        Native::new(Slices::written(&state, limits, || 0))
    }

    /// A call under a ceiling, which only searches have. An error says what the call should not have written, or which
    /// number of its reply belongs to no answer.
    pub fn answer(&mut self, call: &Call, ceiling: u32) -> Result<Answer, String> {
        hold::lend(&mut Exports, &mut self.slices, call, ceiling)
    }
}

impl Subject for Native {
    fn call_within(&mut self, call: &Call, ceiling: u32) -> Answer {
        self.answer(call, ceiling).expect("an answer")
    }
}

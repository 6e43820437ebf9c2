//! The finder: for a slip, the smallest case found whose answers show it.

mod case;
mod generate;
mod known;
mod print;
mod shrink;
mod spoil;

pub use case::{Case, Difference};
pub use generate::{some_reading, Shape, Source};
pub use print::print;
pub use shrink::smallest;

use crate::random::Random;
use crate::slip::Slip;

/// How much work a search may take.
#[derive(Clone, Copy)]
pub struct Effort {
    /// Random cases tried.
    pub tries: usize,
    /// Differing cases made smaller before the search ends.
    pub hits: usize,
}

/// Searches cases from one source: those built by hand first, then random ones.
pub fn find(
    slip: Slip,
    wanted: Difference,
    source: Source,
    seed: u64,
    effort: Effort,
) -> Option<Case> {
    let mut random = Random::new(seed);
    let by_hand = known::cases(slip, source).into_iter();
    let by_chance =
        (0..effort.tries).map(|attempt| Shape::of_attempt(attempt).case(source, &mut random));
    let shown = by_hand.chain(by_chance).filter(|case| case.differs(slip, wanted));
    let smaller = shown.map(|case| smallest(case, |smaller| smaller.differs(slip, wanted)));
    smaller.take(effort.hits).min_by_key(Case::size)
}

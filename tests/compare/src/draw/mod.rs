//! Random inputs for limits of 1,000 numbers and 4,000 rules and for days of eight books: what a compared
//! implementation is to be run on beside the small lists of `finder`.

pub mod days;
pub mod inputs;
pub mod lines;
pub mod states;
pub mod wide;

use crate::answer::{Call, Subject, HIGHEST_CEILING};
use crate::random::Random;

/// A ceiling around what a search needs: one visit less, just that, one more, none, the highest, any less.
pub fn ceiling(needed: u64, random: &mut Random) -> u32 {
    let needed = u32::try_from(needed).unwrap_or(HIGHEST_CEILING);
    match random.below(8) {
        0 => 0,
        1 => HIGHEST_CEILING,
        2 | 3 => needed,
        4 => needed.saturating_add(1),
        5 => random.below(needed as usize + 1) as u32,
        _ => needed.saturating_sub(1),
    }
}

/// A list in which each call has a ceiling around what it needs then, and of at most `most` visits; a stopped one comes
/// at times again. `subject` answers as it is drawn.
pub fn under_ceilings<S: Subject + Clone>(
    calls: &[Call],
    mut subject: S,
    most: u32,
    random: &mut Random,
) -> Vec<(Call, u32)> {
    let mut list = vec![];
    for call in calls {
        loop {
            let needed = subject.clone().call_within(call, most).visits;
            let ceiling = match ceiling(needed, random) {
                ceiling if needed >= u64::from(most) => ceiling.min(most),
                ceiling => ceiling,
            };
            subject.call_within(call, ceiling);
            list.push((call.clone(), ceiling));
            if u64::from(ceiling) >= needed || random.one_in(2) {
                break;
            }
        }
    }
    list
}

/// Runs on a stack on which a walk goes 1,000 places deep.
pub fn on_a_large_stack<T: Send>(run: impl FnOnce() -> T + Send) -> T {
    std::thread::scope(|scope| {
        let thread = std::thread::Builder::new().stack_size(64 << 20).spawn_scoped(scope, run);
        thread.expect("a thread").join().unwrap_or_else(|panic| std::panic::resume_unwind(panic))
    })
}

//! Paper 02, wish 8: books of up to 1,000 variables whose answers are known.

use compare::draw::wide::{Known, Plan, Wide};
use compare::draw::{ceiling, on_a_large_stack};
use compare::random::Random;
use compare::text::{open, LARGEST_TEXT};
use compare::{check, write, Call, Said, Solver, Subject, HIGHEST_CEILING};

/// The visits that a search with an open flag may make: it learns nothing.
const VISITS: u32 = 3_000;

#[derive(Default, Debug)]
struct Count {
    compared: usize,
    stopped: usize,
    variables: usize,
    rules: usize,
    wide_entries: usize,
}

fn hold(wide: &Wide, random: &mut Random, count: &mut Count) {
    let options = wide.options();
    let mut solver = Solver::opened(wide.formula.clone(), options);
    let mut known = Known::of(wide);
    count.variables = count.variables.max(wide.formula.prefix.len());
    count.rules = count.rules.max(wide.formula.clauses.len());
    for small in &wide.calls {
        if matches!(small, Call::Withdraw) && !known.has_rules() || matches!(small, Call::Write(_))
        {
            continue;
        }
        let call = wide.call(small, random);
        let open = matches!(&call, Call::Query(reading) if !reading.is_full(&wide.formula));
        let most = if open { VISITS } else { HIGHEST_CEILING };
        let mut stopped = solver.clone();
        let answer = solver.call_within(&call, most);
        let expected = known.answer(small, &call);
        if answer.said == Said::Refused(34) {
            assert_eq!((open, answer.visits), (true, most.into()), "{call}\n{wide:?}");
            continue;
        }
        assert!(answer.same_reply(&expected), "{call}: {answer}, {expected}\n{wide:?}");
        count.compared += 1;
        let ceiling = ceiling(answer.visits, random);
        let within = stopped.call_within(&call, ceiling);
        if u64::from(ceiling) < answer.visits {
            assert_eq!((within.said, within.visits), (Said::Refused(34), ceiling.into()));
            assert!(within.table.iter().all(|byte| *byte == 0));
            count.stopped += 1;
            if random.one_in(3) {
                // The list goes on from what the stopped call stored.
                solver = stopped;
            }
        } else {
            assert_eq!((&within, &stopped.state), (&answer, &solver.state));
        }
        let entries = [&solver.state.store.clauses, &solver.state.store.cubes];
        let longest = entries.iter().flat_map(|list| list.iter().map(Vec::len)).max();
        count.wide_entries += usize::from(longest > Some(40));
        assert!(!check::malformed(&solver.state, &options), "{call}");
    }
    read_back(&solver);
}

/// "reading back a written book holds where it fits, under the book's own limits".
fn read_back(solver: &Solver) {
    let text = write::text(&solver.state.formula, &solver.options);
    match open(text.as_bytes(), &solver.options) {
        Ok(formula) => assert_eq!(formula, solver.state.formula),
        Err(refused) => assert!(refused.number == 9 && text.len() > LARGEST_TEXT),
    }
}

#[test]
fn small_books_among_many_variables() {
    let count = on_a_large_stack(|| {
        let mut random = Random::new(20_261);
        let mut count = Count::default();
        for attempt in 0..300 {
            let plan = Plan::of_attempt(attempt, &mut random);
            hold(&Wide::draw(plan, &mut random), &mut random, &mut count);
        }
        count
    });
    println!("{count:?}");
    assert!(count.compared > 1_000 && count.stopped > 300, "{count:?}");
    assert!(count.variables > 900 && count.rules > 1_000 && count.wide_entries > 10, "{count:?}");
}

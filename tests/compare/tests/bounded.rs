//! Paper 02, wish 8: own limits and a ceiling on visits, against the figures of the team's readings and by
//! brute force. Visits as learning/plain.

use compare::bounded::{limits, Bounded, CeilingSlip, ALL};
use compare::closest;
use compare::constraint::Polarity;
use compare::finder::{Case, Shape, Source};
use compare::learning::LearningSearch;
use compare::random::Random;
use compare::solver::start_node;
use compare::text::TextRefusal;
use compare::{
    refusal, Answer, Call, Limits, Options, PlainRun, Reading, Said, Solver, State, Store, Subject,
    HIGHEST_CEILING,
};

const A: &str =
    "(flags 1 2)\n(exists 3)\n(forall 4)\n(rule 3 4 (no 1))\n(rule (no 3) (no 4) 2)\n(rule 1 2)\n";
const B: &str = "(flags 1)\n(exists 2)\n(rule 2)\n(rule (no 2))\n";

fn book(body: &str, limits: Limits) -> Result<Bounded, TextRefusal> {
    Bounded::open(format!("(book 1)\n{body}(end)\n").as_bytes(), limits)
}

fn opened(body: &str) -> Bounded {
    book(body, Limits::PAPER).expect("a book")
}

fn stopped(visits: u64, length: usize) -> Answer {
    Answer { said: Said::Refused(34), table: vec![0; length], visits }
}

#[test]
fn figures_of_the_readings() {
    let mut a = opened(A);
    assert_eq!(a.call_within(&Call::Card(4), 10), stopped(10, 4));
    let card = |visits| Answer { said: Said::Lines(2), table: vec![1, 2, 2, 2], visits };
    assert_eq!(a.call_within(&Call::Card(4), HIGHEST_CEILING), card(9));
    assert_eq!(opened(A).call_within(&Call::Card(4), 11), card(11));
    let mut b = opened(B);
    assert_eq!(b.call_within(&Call::Card(1), 3), stopped(3, 1));
    assert_eq!(b.solver.state.store, Store::default());
    let card = |visits| Answer { said: Said::Lines(0), table: vec![0], visits };
    assert_eq!(b.call_within(&Call::Card(1), 4), card(4));
    assert_eq!(b.solver.state.store.clauses, [[0; 0]]);
    assert_eq!(b.call_within(&Call::Card(1), 1), card(1));
    assert_eq!(b.call_within(&Call::KeepCard(0), 0), stopped(0, 0));
}

/// 22 and 8 come first, and a search is 34 before 21.
#[test]
fn order_of_refusals() {
    let mut a = opened(A);
    let query = |on: &[i16], off: &[i16]| Call::Query(Reading::new(on, off));
    assert_eq!(a.call_within(&query(&[3], &[]), 0).said, Said::Refused(8));
    assert_eq!(a.call_within(&query(&[1], &[2]), 0), stopped(0, 0));
    assert_eq!(a.call_within(&query(&[1], &[]), 0), stopped(0, 0));
    assert_eq!(a.call_within(&Call::Card(3), 10), stopped(10, 3));
    assert_eq!(opened(A).call_within(&Call::Card(3), 11).said, Said::Refused(21));
    let mut spoiled = opened(A);
    spoiled.solver.state.store.cubes.push(vec![1, 3]);
    for call in [query(&[1], &[2]), query(&[], &[]), Call::Card(4), Call::KeepCard(4)] {
        assert_eq!(spoiled.call_within(&call, 0).said, Said::Refused(22));
    }
    for call in [Call::Forget, Call::Withdraw, Call::Rule(vec![1]), Call::Write(200)] {
        assert!(!matches!(opened(A).call_within(&call, 0).said, Said::Refused(_)), "{call}");
    }
}

/// "Flag 1, exists 2..1000, each equal to the one before, rule 1000": the longest chain.
#[test]
fn a_thousand_variables() {
    let names: String = (2..=1_000).map(|number| format!(" {number}")).collect();
    let equal = |n: usize| format!("(rule (no {}) {n})\n(rule {} (no {n}))\n", n - 1, n - 1);
    let rules: String = (2..=1_000).map(equal).collect();
    let text = format!("(flags 1)\n(exists{names})\n{rules}(rule 1000)\n");
    let chain = std::thread::Builder::new().stack_size(64 << 20).spawn(move || {
        let mut chain = book(&text, limits(1_000, 4_000, None)).expect("a book");
        let mut plain =
            PlainRun::new(chain.solver.state.formula.clone(), chain.solver.options.limits);
        let card = Answer { said: Said::Lines(1), table: vec![2], visits: 3_999 };
        assert_eq!(chain.clone().call_within(&Call::Card(1), 3_998), stopped(3_998, 1));
        assert_eq!(chain.call_within(&Call::Card(1), 3_999), card);
        assert_eq!(plain.call(&Call::Card(1)), card);
    });
    chain.expect("a thread").join().expect("no panic");
}

#[test]
fn limits_are_capped() {
    let numbers = |given| limits(given, 255, None).numbers;
    assert_eq!([0, 40, 1_000, 1_001, usize::MAX].map(numbers), [0, 40, 1_000, 1_000, 1_000]);
    let rules = |given| limits(40, given, None).clauses;
    assert_eq!([0, 4_000, 4_001, usize::MAX].map(rules), [0, 4_000, 4_000, 4_000]);
    for high in
        [Limits { numbers: 1_001, ..Limits::HIGHEST }, Limits { clauses: 4_001, ..Limits::HIGHEST }]
    {
        let mut solver = Solver::opened(Default::default(), Options::with(high));
        assert_eq!(solver.call(&Call::Forget).said, Said::Refused(22));
    }
    let mut solver = Solver::opened(Default::default(), Options::with(Limits::HIGHEST));
    assert_eq!(solver.call(&Call::Forget).said, Said::Forgotten);
}

fn refused(body: &str, limits: Limits) -> (u8, usize) {
    let refusal = book(body, limits).expect_err("a refusal");
    (refusal.number, refusal.line)
}

fn flags(numbers: impl Iterator<Item = usize>) -> String {
    format!("(flags{})\n", numbers.map(|number| format!(" {number}")).collect::<String>())
}

/// 3, 20 and 22 read the book's own limits; "Declaring a 41st flag is 33, checked after 4".
#[test]
fn refusals_under_own_limits() {
    let wide = limits(1_000, 4_000, None);
    assert_eq!(refused("(flags 1001)\n", wide), (3, 2));
    assert!(book("(flags 1000)\n(rule (no 1000))\n", wide).is_ok());
    assert_eq!(refused("(flags 3)\n", limits(2, 1, None)), (3, 2));
    assert_eq!(refused("(flags 1)\n(rule 1)\n(rule 1)\n", limits(2, 1, None)), (20, 4));
    assert_eq!(refused("(flags 1)\n(rule)\n", limits(2, 0, None)), (20, 3));
    assert_eq!(refused("(flags 1)\n", limits(0, 0, None)), (3, 2));
    assert!(book("(flags)\n", limits(0, 0, None)).is_ok());
    assert!(book(&flags(1..=40), wide).is_ok());
    assert_eq!(refused(&flags(1..=41), wide), (33, 2));
    assert_eq!(refused(&flags((1..=40).chain([7, 41])), wide), (4, 2));
    assert_eq!(refused(&flags((1..=40).chain([1_001])), wide), (3, 2));
    assert_eq!(refused(&flags((1..=40).chain([41, 1_001])), wide), (33, 2));
    assert_eq!(refused(&flags(1..=41), Limits::PAPER), (3, 2));
    let groups = format!("{}(exists 41)\n(forall 42)\n", flags(1..=40));
    assert!(book(&groups, wide).is_ok());
    let mut many = book(&groups, wide).expect("a book").solver;
    many.state.formula.prefix[40].quantifier = compare::Quantifier::Free;
    assert_eq!(many.call(&Call::Forget).said, Said::Refused(22));
}

/// ".. (in QDIMACS at the end of the text, before 30)".
#[test]
fn flags_of_qdimacs() {
    let wide = limits(1_000, 4_000, None);
    let refused = |text: &str| {
        let refusal = Bounded::open_qdimacs(text.as_bytes(), wide).expect_err("a refusal");
        (refusal.number, refusal.line)
    };
    assert_eq!(refused("p cnf 41 0\n"), (33, 2));
    assert_eq!(refused("p cnf 41 1\n"), (33, 2));
    assert_eq!(refused("p cnf 41 1\n1 0\n2 0\n42 0\n"), (5, 4));
    assert_eq!(refused("p cnf 1001 0\n"), (3, 1));
    assert_eq!(refused("p cnf 40 1\n"), (30, 2));
    assert!(Bounded::open_qdimacs(b"p cnf 41 1\ne 3 0\n1 41 0\n", wide).is_ok());
}

/// The start node of a learning search and the verdict of its lines; none where it is refused first, or is a
/// query with an open flag.
fn search_of(state: &State, call: &Call, options: &Options) -> Option<(Vec<bool>, Polarity)> {
    match call {
        Call::Query(reading) => {
            let refused = refusal::of_query(&state.formula, reading, options).is_some();
            let learns = !refused && reading.is_full(&state.formula);
            learns.then(|| (start_node(&state.formula, reading), Polarity::Cube))
        }
        Call::Card(_) => Some((vec![], Polarity::Cube)),
        Call::Closest(reading, _) => {
            let refused = closest::refusal(&state.formula, reading, options).is_some();
            (!refused).then_some((vec![], Polarity::Cube))
        }
        Call::KeepCard(_) => Some((vec![], Polarity::Clause)),
        _ => None,
    }
}

/// The store after the joins of the full search that were made before visit `ceiling + 1`.
fn kept(state: &State, call: &Call, ceiling: u32, visits: u32, options: &Options) -> Store {
    // What learns nothing keeps the store.
    let Some((start, wanted)) = search_of(state, call, options) else { return state.store.clone() };
    let mut other = state.clone();
    let State { formula, store } = &mut other;
    // With as many visits as it needs the search is the full one.
    let (_, search) = LearningSearch::run(formula, store, &start, wanted, visits, options);
    let joins: Vec<_> =
        search.learned.into_iter().filter(|(at, _)| *at <= u64::from(ceiling)).collect();
    let (mut store, standing) = (state.store.clone(), state.formula.clauses.len());
    for (_, joined) in joins {
        store.learn(joined.polarity, &joined.literals, standing, options);
    }
    store
}

/// Every ceiling from 0 to more than a call needs.
fn check_ceilings(solver: &Solver, call: &Call, plain_visits: u64, words: &str) {
    let mut full = solver.clone();
    let answer = full.call(call);
    let searches = answer.visits > 0;
    let visits = answer.visits as u32;
    for ceiling in 0..=visits + 1 {
        let mut within = solver.clone();
        let bounded = within.call_within(call, ceiling);
        if !searches || ceiling >= visits {
            assert_eq!((&bounded, &within.state), (&answer, &full.state), "{call}\n{words}");
            continue;
        }
        let zeroed = stopped(ceiling.into(), answer.table.len());
        assert_eq!(bounded, zeroed, "{call}, ceiling {ceiling}\n{words}");
        assert!(u64::from(ceiling) < plain_visits, "{call}: the plain walk fits\n{words}");
        let store = kept(&solver.state, call, ceiling, visits, &solver.options);
        let state = State { formula: solver.state.formula.clone(), store };
        assert_eq!(within.state, state, "{call}, ceiling {ceiling}\n{words}");
    }
}

#[test]
fn every_ceiling_by_brute_force() {
    let mut random = Random::new(20_235);
    for attempt in 0..8_000 {
        let case = Shape::of_attempt(attempt).case(Source::Opened, &mut random);
        let mut solver = Solver::new(case.state.clone(), Options::with(case.limits));
        let mut plain = PlainRun::new(case.state.formula.clone(), case.limits);
        for call in &case.calls {
            let plain_visits = plain.call(call).visits;
            check_ceilings(&solver, call, plain_visits, &format!("{case:?}"));
            // Now and then the list goes on from a stopped call.
            let ceiling = random.pick(&[HIGHEST_CEILING, HIGHEST_CEILING, 0, 1, 3, 6]);
            solver.call_within(call, ceiling);
        }
    }
}

/// "A call whose plain walk fits the ceiling is therefore always finished, in any list"; "only a stopped
/// call's answer is not compared with it, its visits still are".
#[test]
fn lists_under_ceilings_are_the_plain_run() {
    let mut random = Random::new(20_236);
    let (mut halted, mut finished) = (0, 0);
    for attempt in 0..30_000 {
        let shape = Shape { calls: 8, ..Shape::of_attempt(attempt) };
        let case = shape.case(Source::Opened, &mut random);
        let mut solver = Solver::new(case.state.clone(), Options::with(case.limits));
        let mut plain = PlainRun::new(case.state.formula.clone(), case.limits);
        for call in &case.calls {
            let ceiling = random.pick(&[0, 1, 2, 3, 4, 6, 9, 14, 30, HIGHEST_CEILING]);
            let (answer, plain_answer) = (solver.call_within(call, ceiling), plain.call(call));
            assert!(answer.visits <= plain_answer.visits, "{call}\n{case:?}");
            assert!(answer.visits <= ceiling.into(), "{call}\n{case:?}");
            if answer.said == Said::Refused(34) {
                assert_eq!(answer.visits, ceiling.into(), "{call}\n{case:?}");
                assert!(plain_answer.visits > ceiling.into(), "{call}\n{case:?}");
                halted += 1;
            } else {
                assert!(answer.same_reply(&plain_answer), "{call}\n{case:?}");
                finished += 1;
            }
            assert_eq!(solver.state.formula, plain.formula, "{call}\n{case:?}");
        }
    }
    println!("{halted} calls stopped, {finished} finished");
    assert!(halted > 10_000 && finished > 10_000);
}

/// Whether a slip changes an answer of a list, each call under a ceiling near what it needs.
fn shows(case: &Case, slip: CeilingSlip, random: &mut Random) -> bool {
    let solver = Solver::new(case.state.clone(), Options::with(case.limits));
    let mut right = Bounded { solver, slip: None };
    let mut slipped = Bounded { slip: Some(slip), ..right.clone() };
    case.calls.iter().any(|call| {
        let needed = right.clone().call_within(call, HIGHEST_CEILING).visits as u32;
        let ceiling = needed.saturating_add_signed(random.between(0, 4) as i32 - 3);
        right.call_within(call, ceiling) != slipped.call_within(call, ceiling)
    })
}

#[test]
fn every_slip_shows() {
    use CeilingSlip::{NumbersNotCapped, RulesNotCapped};
    for (slip, words) in ALL {
        let mut random = Random::new(1);
        let shown = match slip {
            NumbersNotCapped | RulesNotCapped => {
                limits(2_000, 5_000, Some(*slip)) != limits(2_000, 5_000, None)
            }
            _ => (0..20_000).any(|attempt| {
                let shape = Shape { calls: 6, ..Shape::of_attempt(attempt) };
                shows(&shape.case(Source::Opened, &mut random), *slip, &mut random)
            }),
        };
        assert!(shown, "{slip:?}: {words}");
    }
}

//! The calls on a book in two slices, under limits of its own, against the independent implementation: states with every
//! fault of own limits, books of up to nearly 1,000 variables, and how long the slices have to be.

use compare::draw::on_a_large_stack;
use compare::hold::InPlace;
use compare::limits::ALL;
use compare::slices::{Cells, Rows, Slices};
use compare::{Call, Formula, Limits, Quantifier, Said, State, Store, Variable, HIGHEST_CEILING};
use native::exports::{lengths, room, Exports};
use native::rounds::states::{drawn, of_states, of_wide};
use native::rounds::Counts;
use native::run::{rounds, seed, timed};
use std::thread;

/// The most variables and rules, and the longest learned entry.
#[derive(Debug, Default)]
struct Most(usize, usize, usize);

impl Most {
    fn add(&mut self, State { formula, store }: &State) {
        let entries = store.clauses.iter().chain(&store.cubes).map(Vec::len);
        self.0 = self.0.max(formula.prefix.len());
        self.1 = self.1.max(formula.clauses.len());
        self.2 = entries.fold(self.2, usize::max);
    }
}

fn run(usual: u64, round: fn(u64, u64, &mut Counts) -> Result<Slices, String>) -> (Counts, Most) {
    let (seed, mut counts, mut most) = (seed(), Counts::default(), Most::default());
    on_a_large_stack(|| {
        rounds(usual, |index| {
            let slices = round(seed, index, &mut counts);
            let slices = slices.unwrap_or_else(|error| panic!("index {index}: {error}"));
            slices.read_well_formed().iter().for_each(|state| most.add(state));
        })
    });
    println!("{counts}\n{most:?}");
    (counts, most)
}

#[test]
fn drawn_states() {
    let (counts, _) = run(2_000, of_states);
    let numbers = [3, 5, 6, 7, 8, 21, 22, 34];
    let all = numbers.iter().all(|number| counts.refusals.get(number) > Some(&4));
    assert!(timed() || all && counts.all() > 3_000, "{counts}");
}

#[test]
fn wide_books() {
    let (_, most) = run(120, of_wide);
    assert!(timed() || most.0 > 900 && most.2 > 40, "{most:?}");
}

/// The comparison can fail: each slip of states is told apart.
#[test]
fn every_slip_of_states_is_told_apart() {
    let seed = seed();
    for (slip, words) in ALL.iter().filter(|(slip, _)| slip.is_of_states()) {
        let differs =
            |index| drawn(seed, index, true).held(Some(*slip), &mut Counts::default()).is_err();
        let told = on_a_large_stack(|| (0..4_000).find(|index| differs(*index)));
        assert!(told.is_some(), "{slip:?}: {words}");
    }
}

/// The lengths under every limit up to the caps, and under some above.
#[test]
fn lengths_are_those_of_the_limits() {
    let numbers = (0..=1_003).chain([65_535, 65_536, usize::MAX]);
    for (index, numbers) in numbers.enumerate() {
        for rules in [0, 1, 255, 4_000, 4_001, usize::MAX, index * 4] {
            let own = Limits::own(numbers, rules);
            let expected = (Cells::of(&own).count, Rows::of(&own, None).count);
            assert_eq!(lengths((numbers, rules)), expected, "{numbers}, {rules}");
        }
    }
    assert_eq!(room(&[40, 255]), 34_928);
    assert_eq!(room(&[1_000, 4_000]), 682_023);
    assert_eq!(room(&[u16::MAX, u16::MAX]), 682_023);
    assert_eq!(room(&[]), room(&[0, 0]));
}

/// Variables of which a search sets every one, under limits.
fn deepest(variables: i16, limits: &Limits) -> Slices {
    let variable = |number| Variable { number, quantifier: Quantifier::Exists };
    let prefix = (1..=variables).map(variable).collect();
    let formula = Formula { prefix, clauses: vec![vec![variables], vec![1 - variables]] };
    Slices::written(&State { formula, store: Store::default() }, limits, || 0x7A7A)
}

/// Calls on a stack of so many KiB.
fn on_a_stack_of(kib: usize, mut slices: Slices, calls: Vec<(Call, Said, u64)>) {
    let run = move || {
        for (call, said, visits) in calls {
            let (cells, literals) = (&mut slices.cells, &mut slices.literals);
            let answer = Exports.call(cells, literals, &call, HIGHEST_CEILING, &mut []);
            assert_eq!(answer, Ok((said, visits)), "{call}");
        }
    };
    let thread = thread::Builder::new().stack_size(kib << 10).spawn(run);
    thread.expect("a thread can be started").join().expect("the calls return");
}

/// The stacks that the header asks for.
#[test]
fn a_search_needs_less_than_512_kib() {
    let (card, query) = (Call::Card(0), Call::Query(Default::default()));
    let calls = vec![(card, Said::Lines(1), 1_002), (query, Said::Swap, 1_002)];
    on_a_stack_of(512, deepest(1_000, &Limits::HIGHEST), calls);
}

#[test]
fn a_search_on_40_variables_needs_less_than_128_kib() {
    let (card, query) = (Call::Card(0), Call::Query(Default::default()));
    let calls = vec![(card, Said::Lines(1), 42), (query, Said::Swap, 42)];
    on_a_stack_of(128, deepest(40, &Limits::PAPER), calls);
}

#[test]
fn a_call_without_a_search_needs_less_than_32_kib() {
    let calls = vec![
        (Call::Rule(vec![1, -2, 3]), Said::Added, 0),
        (Call::One(vec![1, 2, 3]), Said::Added, 0),
        (Call::Withdraw, Said::Withdrawn, 0),
        (Call::Forget, Said::Forgotten, 0),
        (Call::Write(0), Said::Refused(31), 0),
    ];
    on_a_stack_of(32, deepest(1_000, &Limits::HIGHEST), calls);
}

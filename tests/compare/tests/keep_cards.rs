//! Paper 02, wish 7: the figures of the team's readings, and that the two cards of a book part its
//! readings among them. Visits as learning/plain.

use compare::finder::{Shape, Source};
use compare::random::Random;
use compare::text::open;
use compare::{Answer, Call, Formula, Limits, Options, PlainRun, Said, Solver, Subject};

const A: &str =
    "(flags 1 2)\n(exists 3)\n(forall 4)\n(rule 3 4 (no 1))\n(rule (no 3) (no 4) 2)\n(rule 1 2)\n";
const A_EXCHANGED: &str =
    "(flags 2 1)\n(exists 3)\n(forall 4)\n(rule 3 4 (no 1))\n(rule (no 3) (no 4) 2)\n(rule 1 2)\n";
const B: &str = "(flags 1)\n(exists 2)\n(rule 2)\n(rule (no 2))\n";

fn formula(body: &str) -> Formula {
    let text = format!("(book 1)\n{body}(end)\n");
    open(text.as_bytes(), &Options::paper()).expect("a book")
}

/// One call with what it answers: the reply, the table and both counts of visits.
type Row = (Call, Said, &'static [u8], u64, u64);

fn expect(body: &str, rows: &[Row]) {
    let formula = formula(body);
    let mut learning = Solver::opened(formula.clone(), Options::paper());
    let mut plain = PlainRun::new(formula, Limits::PAPER);
    for (call, said, table, learning_visits, plain_visits) in rows {
        let answer = |visits| Answer { said: *said, table: table.to_vec(), visits };
        assert_eq!(learning.call(call), answer(*learning_visits), "learning, {call}\n{body}");
        assert_eq!(plain.call(call), answer(*plain_visits), "plain, {call}\n{body}");
    }
}

#[test]
fn figures_of_the_readings() {
    use Call::{Card, KeepCard};
    use Said::{Lines, Refused};
    let keep: Row = (KeepCard(4), Lines(2), &[1, 1, 2, 1], 11, 11);
    expect(A, &[keep, (Card(4), Lines(2), &[1, 2, 2, 2], 9, 11)]);
    let refused: Row = (KeepCard(0), Refused(21), &[], 4, 7);
    expect(B, &[refused, (KeepCard(1), Lines(1), &[0], 1, 7)]);
}

#[test]
fn lines_and_tables() {
    use Call::{Card, KeepCard};
    use Said::{Lines, Refused};
    // Two No halves under flag 2 off are one line, and the bytes of the second are zero again.
    expect(A_EXCHANGED, &[(KeepCard(5), Lines(1), &[1, 0, 0, 0, 0], 11, 11)]);
    expect(A_EXCHANGED, &[(KeepCard(2), Lines(1), &[1, 0], 11, 11)]);
    expect(A, &[(KeepCard(3), Refused(21), &[0, 0, 0], 11, 11)]);
    // With no flag one empty line if No, and none if Yes.
    let forall = "(flags)\n(forall 1)\n(rule 1)\n";
    expect(forall, &[(KeepCard(0), Lines(1), &[], 1, 1), (Card(0), Lines(0), &[], 1, 1)]);
    let exists = "(flags)\n(exists 1)\n(rule 1)\n";
    expect(exists, &[(KeepCard(2), Lines(0), &[0, 0], 3, 3), (Card(0), Lines(1), &[], 3, 3)]);
    expect("(flags 1 2)\n", &[(KeepCard(0), Lines(0), &[], 1, 1)]);
}

/// The lines in a table, and the readings of a line: "2 to the power of its open flags".
fn lines(answer: &Answer, flags: usize) -> Vec<Vec<u8>> {
    let Said::Lines(count) = answer.said else { panic!("{answer}") };
    (0..count).map(|line| answer.table[line * flags..(line + 1) * flags].to_vec()).collect()
}

fn readings(line: &[u8]) -> u128 {
    1 << line.iter().filter(|byte| **byte == 0).count()
}

fn lies_on(reading: usize, line: &[u8]) -> bool {
    line.iter().enumerate().all(|(flag, byte)| [0, 1 + (reading >> flag & 1) as u8].contains(byte))
}

/// "each reading lies on exactly one line of one of the two"; "Added over both cards these give 2 to the
/// power f".
fn parted(cards: [&Answer; 2], flags: usize, words: &str) {
    let lines = cards.map(|card| lines(card, flags)).concat();
    for reading in 0..1 << flags {
        let on = lines.iter().filter(|line| lies_on(reading, line)).count();
        assert_eq!(on, 1, "reading {reading:b}: {lines:?}\n{words}");
    }
    assert_eq!(lines.iter().map(|line| readings(line)).sum::<u128>(), 1 << flags, "{words}");
}

/// A call that leaves the rules as they are: a query, a forget, a book written back, or a refused one.
fn between(solver: &Solver, shape: Shape, random: &mut Random) -> Vec<Call> {
    let case = Shape { calls: 8, ..shape }.case(Source::Opened, random);
    let keeps = |call: &Call| {
        let mut other = solver.clone();
        other.call(call);
        other.state.formula == solver.state.formula
    };
    case.calls.into_iter().filter(keeps).collect()
}

#[test]
fn both_cards_part_the_readings() {
    let mut random = Random::new(20_234);
    let (mut made, mut mixed, mut called, mut refused) = (0, 0, 0, 0);
    for attempt in 0..30_000 {
        let shape = Shape::of_attempt(attempt);
        let case = shape.case(Source::Opened, &mut random);
        let mut solver = Solver::new(case.state.clone(), Options::with(case.limits));
        solver.run(&case.calls);
        let flags = solver.state.formula.free_count();
        let length = (flags << flags) + random.below(3);
        let mut cards = [Call::Card(length), Call::KeepCard(length)];
        if random.one_in(2) {
            cards.reverse();
        }
        let first = solver.call(&cards[0]);
        for call in between(&solver, shape, &mut random) {
            let answer = solver.call(&call);
            called += 1;
            refused += usize::from(matches!(answer.said, Said::Refused(_)));
        }
        let second = solver.call(&cards[1]);
        let words = format!("{case:?}");
        parted([&first, &second], flags, &words);
        // "Their lines come from either walk alike."
        let mut plain = PlainRun::new(solver.state.formula.clone(), case.limits);
        for (call, answer) in cards.iter().zip([&first, &second]) {
            assert!(plain.call(call).same_reply(answer), "{words}");
        }
        made += 1;
        let count = |answer: &Answer| lines(answer, flags).len();
        mixed += usize::from(count(&first) > 0 && count(&second) > 0);
    }
    println!("{made} pairs of cards, {mixed} with lines on both; {called} calls between, {refused} refused");
    assert!(mixed > 3_000 && called > 30_000 && refused > 3_000);
}

/// With 40 flags the sum is 2 to the power 40.
#[test]
fn forty_flags() {
    let flags: String = (1..=40).map(|flag| format!(" {flag}")).collect();
    for rules in ["(rule 3 5)\n(rule 1 2 (no 3))\n(rule (no 7))\n", "(rule 1)\n", ""] {
        let book = formula(&format!("(flags{flags})\n{rules}"));
        let mut solver = Solver::opened(book, Options::paper());
        let cards = [Call::Card(4_000), Call::KeepCard(4_000)].map(|call| solver.call(&call));
        let all = cards.iter().flat_map(|card| lines(card, 40));
        assert_eq!(all.map(|line| readings(&line)).sum::<u128>(), 1 << 40, "{rules}");
    }
}

//! Paper 02, wish 12: the figures of the team's readings, the promises over random days, and that every slip shows.

use compare::day::{program, Accounts, Day, DaySlip, ALL, PLACES};
use compare::draw::days::{self, draw, Drawn};
use compare::draw::lines;
use compare::random::Random;
use compare::session::{request, Request};
use compare::text::open;
use compare::{Answer, Call, Options, PlainRun, Said, Solver, Subject, HIGHEST_CEILING};

const A: &str = "(book 1)\n(flags 1 2)\n(exists 3)\n(forall 4)\n(rule 3 4 (no 1))\n\
                 (rule (no 3) (no 4) 2)\n(rule 1 2)\n(end)\n";

fn day_of_a(total: u32) -> Day {
    let options = Options::paper();
    let mut day = Day::new(total);
    day.load(1, open(A.as_bytes(), &options).expect("a book"), options);
    day
}

fn told(day: &mut Day, place: usize, ceiling: u32) -> (Said, u64) {
    let Answer { said, visits, .. } = day.call(place, &Call::Card(4), ceiling);
    (said, visits)
}

#[test]
fn figures_of_the_readings() {
    let mut day = day_of_a(90);
    assert_eq!(told(&mut day, 1, HIGHEST_CEILING), (Said::Lines(2), 11));
    assert_eq!(told(&mut day, 1, HIGHEST_CEILING), (Said::Refused(37), 2));
    assert_eq!(day.accounts.used[0], 13);
    assert_eq!(told(&mut day, 1, HIGHEST_CEILING), (Said::Refused(37), 0));
    assert_eq!(told(&mut day, 1, 5), (Said::Refused(37), 0));
    assert_eq!(told(&mut day, 1, 0), (Said::Refused(34), 0));
}

/// 38 first, "also for a malformed box"; then the accounts' 22, then the called book's own.
#[test]
fn order_of_refusals() {
    let mut day = day_of_a(90);
    day.accounts.used[3] = u32::MAX;
    for place in [0, 2, 9, usize::MAX] {
        assert_eq!(told(&mut day, place, 0), (Said::Refused(38), 0));
    }
    assert_eq!(told(&mut day, 1, 0), (Said::Refused(22), 0));
    // Place 4 has used 14 of 90: 76 are used or owed to the seven others, and nothing is free.
    day.accounts.used[3] = 13;
    assert!(!day.accounts.malformed(None));
    assert_eq!(day.accounts.left(0, None), 11);
    day.accounts.used[3] = 14;
    assert!(day.accounts.malformed(None));
    let mut day = day_of_a(90);
    day.load(2, open(A.as_bytes(), &Options::paper()).expect("a book"), Options::paper());
    day.books[1].as_mut().expect("a book").state.store.cubes.push(vec![1, 3]);
    assert_eq!(told(&mut day, 2, 0), (Said::Refused(22), 0));
    // "The other books' states are not looked at".
    assert_eq!(told(&mut day, 1, 11), (Said::Lines(2), 11));
}

#[test]
fn accounts_of_any_total() {
    for total in [0, 1, 7, 8, 9, 90, u32::MAX - 1, u32::MAX] {
        let accounts = Accounts::new(total);
        assert!(!accounts.malformed(None));
        assert_eq!(accounts.left(0, None), total / 8 + total % 8);
    }
    let all = Accounts { total: u32::MAX, used: [u32::MAX; PLACES] };
    assert!(all.malformed(None));
}

/// Over every list: the sum never exceeds T, a book that has used less than its floor can use the rest, and apart from
/// the limit each book answers as if alone.
#[test]
fn random_days() {
    let mut random = Random::new(20_241);
    let mut seen = std::collections::BTreeMap::<u8, u32>::new();
    for _ in 0..6_000 {
        let drawn = draw(&mut random);
        let mut day = drawn.day();
        let mut alone = day.books.clone();
        let plain = |book: &Option<Solver>| {
            let book = book.as_ref()?;
            Some(PlainRun::new(book.state.formula.clone(), book.options.limits))
        };
        let mut plain: Vec<Option<PlainRun>> = alone.iter().map(plain).collect();
        let floor = day.accounts.total / 8;
        for (place, call, ceiling) in drawn.calls {
            let before = day.accounts.clone();
            let answer = day.call(place, &call, ceiling);
            let index = place.wrapping_sub(1);
            let Some(Some(book)) = alone.get_mut(index) else {
                assert_eq!((answer.said, answer.visits), (Said::Refused(38), 0));
                assert_eq!(day.accounts, before);
                continue;
            };
            let (left, used) = (before.left(index, None), before.used[index]);
            assert!(left >= floor.saturating_sub(used), "{call}");
            let mut expected = book.call_within(&call, ceiling.min(left));
            if expected.said == Said::Refused(34) && ceiling > left {
                expected.said = Said::Refused(37);
            }
            assert_eq!(answer, expected, "{call}");
            assert_eq!(day.books[place - 1].as_ref().map(|b| &b.state), Some(&book.state));
            assert_eq!(u64::from(day.accounts.used[place - 1] - used), answer.visits);
            assert!(
                day.accounts.used.iter().map(|u| u64::from(*u)).sum::<u64>()
                    <= day.accounts.total.into()
            );
            assert!(!day.accounts.malformed(None));
            let run = plain[place - 1].as_mut().expect("beside the book").call(&call);
            match answer.said {
                Said::Refused(34 | 37) => assert!(run.visits > answer.visits, "{call}"),
                _ => assert!(run.same_reply(&answer) && answer.visits <= run.visits, "{call}"),
            }
            if let Said::Refused(number) = answer.said {
                *seen.entry(number).or_default() += 1;
            }
        }
    }
    println!("refusals {seen:?}");
    assert!([8, 21, 34, 35, 37].iter().all(|number| seen.get(number) > Some(&50)), "{seen:?}");
}

const OF_THE_PROGRAM: [DaySlip; 5] = [
    DaySlip::PlaceGivenAgain,
    DaySlip::LimitsLost,
    DaySlip::TextNotSkipped,
    DaySlip::LinesOfTheText,
    DaySlip::CardOfAnotherPlace,
];

/// A drawn day, now and then with accounts or a book that no calls reach.
fn any_day(drawn: &Drawn, random: &mut Random) -> Day {
    let mut day = drawn.day();
    if random.one_in(4) {
        day.accounts.used[random.below(PLACES)] = random.below(300) as u32;
    }
    if let (Some(book), true) = (&mut day.books[0], random.one_in(4)) {
        book.state.store.cubes.push(vec![0]);
    }
    day
}

/// Every slip of the accounts and the calls changes an answer, a state or the accounts.
#[test]
fn every_slip_shows() {
    for (slip, words) in ALL.iter().filter(|(slip, _)| !OF_THE_PROGRAM.contains(slip)) {
        let mut random = Random::new(1);
        let shown = (0..3_000).any(|_| {
            let drawn = draw(&mut random);
            let mut day = any_day(&drawn, &mut random);
            let mut slipped = Day { slip: Some(*slip), ..day.clone() };
            drawn.calls.iter().any(|(place, call, ceiling)| {
                let right = day.call(*place, call, *ceiling);
                let states = |day: &Day| -> Vec<_> {
                    day.books.iter().map(|book| book.as_ref().map(|b| b.state.clone())).collect()
                };
                right != slipped.call(*place, call, *ceiling)
                    || states(&day) != states(&slipped)
                    || day.accounts != slipped.accounts
            })
        });
        assert!(shown, "{slip:?}: {words}");
    }
}

fn printed(text: &[u8], slip: Option<DaySlip>) -> String {
    let mut output = vec![];
    program::run(text, &mut output, slip).expect("bytes in, bytes out");
    String::from_utf8(output).expect("answers are ASCII")
}

/// The program charges what the calls need: its last line, `(shares)`, is that of the same calls on the books.
#[test]
fn the_program_on_drawn_days() {
    let mut random = Random::new(20_242);
    let mut stopped = 0;
    for _ in 0..2_000 {
        let drawn = draw(&mut random);
        let text = days::text(&drawn, &mut random);
        let mut day = drawn.day();
        for (place, call, ceiling) in &drawn.calls {
            if lines::line(call, *ceiling).is_some() {
                day.call(*place, call, *ceiling);
            }
        }
        let place = |index: usize| {
            let (used, left) = (day.accounts.used[index], day.accounts.left(index, None));
            format!(" (place {} (used {used}) (left {left}))", index + 1)
        };
        let places: String = (0..PLACES).map(place).collect();
        let shares = format!("(shares (total {}){places})", drawn.total);
        let output = printed(&text, None);
        assert_eq!(output.lines().last(), Some(&shares[..]), "{}", String::from_utf8_lossy(&text));
        stopped += output.matches("(refused 37 ").count();
    }
    assert!(stopped > 1_000, "only {stopped}");
}

/// A call is read from its line as it was written.
#[test]
fn lines_of_drawn_calls() {
    let mut random = Random::new(20_243);
    for _ in 0..500 {
        for (_, call, ceiling) in draw(&mut random).calls {
            let Some(line) = lines::line(&call, ceiling) else { continue };
            let Some(Request::Call(read, within)) = request(line.as_bytes()) else {
                panic!("{line}")
            };
            let ceiling = if call.searches() { ceiling } else { HIGHEST_CEILING };
            // -32768 stands in a line as a number that is out of range all the same.
            let same = read.to_string() == call.to_string().replace("-32768", "-32767");
            assert!(same && within == ceiling, "{line}: {read}, {call}");
        }
    }
}

/// Every slip changes what the program prints for a drawn input, but those that no input shows.
#[test]
fn every_slip_of_the_program_shows() {
    for (slip, words) in ALL.iter().filter(|(slip, _)| !slip.is_of_states()) {
        let mut random = Random::new(2);
        let shown = (0..2_000).any(|_| {
            let text = days::text(&draw(&mut random), &mut random);
            printed(&text, None) != printed(&text, Some(*slip))
        });
        assert!(shown, "{slip:?}: {words}");
    }
}

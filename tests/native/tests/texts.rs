//! Texts, opened and printed, and call lines: the library against the independent implementation.

use compare::cases::{self, Program, StoredCase};
use compare::last_card;
use compare::limits::LimitSlip;
use compare::page::Card;
use compare::random::Random;
use compare::text::LARGEST_TEXT;
use compare::{Limits, Said};
use native::input::{draw, Source};
use native::rounds::books::{hold_text, with_page};
use native::rounds::lines::Both;
use native::rounds::{books, lines, shown, Counts};
use native::run::{rounds, seed, timed};
use native::text::{self as library, room, Cards, Page, Room, Shown};

/// The cases of a program, without and with arguments, and the limits that these give.
fn stored(program: Program) -> Vec<(StoredCase, Limits)> {
    let stored = [cases::stored(program), cases::limited(program)];
    let stored = stored.map(|cases| cases.expect("cases can be read")).concat();
    let limits = |case: &StoredCase| case.given(None).map(|(n, rules)| Limits::own(n, rules));
    let given = stored.into_iter().filter_map(|case| limits(&case).map(|limits| (case, limits)));
    given.collect()
}

#[test]
fn stored_books() {
    let examples = cases::examples().expect("cases can be read");
    let examples = examples.into_iter().map(|case| (case, Limits::PAPER));
    for (case, limits) in stored(Program::Card).into_iter().chain(examples) {
        let printed = with_page(|page| page.print(&case.input, &Room::of(&limits)));
        let printed = printed.expect("guards").expect("the table is long enough");
        assert!(printed == case.expected, "{}: {}", case.name, shown(&printed));
    }
}

/// The text up to and with its first line `(end)`, and the rest.
fn split_book(input: &[u8]) -> (&[u8], &[u8]) {
    let mut at = 0;
    for line in input.split_inclusive(|&byte| byte == b'\n') {
        at += line.len();
        if line == b"(end)\n" || at > LARGEST_TEXT {
            break;
        }
    }
    input.split_at(at)
}

#[test]
fn stored_sessions() {
    for (case, limits) in stored(Program::Session) {
        let (book, rest) = split_book(&case.input);
        let opened = library::open(book, &Room::of(&limits)).expect("guards");
        let mut output = vec![];
        let (mut slices, mut cards) = (opened.slices, Cards::none());
        let mut number = book.iter().filter(|&&byte| byte == b'\n').count() as u64;
        if opened.refusal != 0 {
            output.extend(format!("(refused {} {})\n", opened.refusal, opened.line).bytes());
        } else {
            for line in rest.split_inclusive(|&byte| byte == b'\n') {
                number += 1;
                let Some(line) = line.strip_suffix(b"\n") else {
                    output.extend(format!("(refused 1 {number})\n").bytes());
                    continue;
                };
                let text = with_page(|page| page.line(&mut slices, line, number, &mut cards));
                output.extend(text.expect("guards").expect("the table is long enough"));
            }
        }
        assert!(output == case.expected, "{}: {}", case.name, shown(&output));
    }
}

#[test]
fn random_books() {
    let (seed, mut counts) = (seed(), Counts::default());
    let (mut opened, mut refused) = (0u64, 0u64);
    rounds(4_000, |index| {
        match books::round(seed, index, &mut counts).unwrap_or_else(|error| panic!("{error}")) {
            Some(true) => opened += 1,
            Some(false) => refused += 1,
            None => {}
        }
    });
    println!("{opened} texts opened, {refused} refused: {counts}");
    assert!(timed() || opened > 500 && refused > 500);
    assert!(timed() || counts.has(&[1, 2, 3, 4, 5, 6, 7, 20]), "{counts}");
}

/// Texts under limits that hold their book and limits that do not, onto slices that are long enough or too short.
#[test]
fn texts_onto_slices() {
    let (seed, mut counts) = (seed(), Counts::default());
    rounds(600, |index| {
        books::onto_slices(seed, index, &mut counts).unwrap_or_else(|error| panic!("{error}"));
    });
    println!("{counts}");
    let all = [1, 3, 20, 22, 33].iter().all(|number| counts.refusals.get(number) > Some(&4));
    assert!(timed() || all && counts.all() - counts.refusals.values().sum::<u64>() > 100);
}

/// The comparison can fail: each slip of limits that a text can show is told apart.
#[test]
fn every_slip_of_limits_is_told_apart() {
    let (seed, slips) = (
        seed(),
        [
            LimitSlip::NumbersByTheCap,
            LimitSlip::RulesByTheCap,
            LimitSlip::NumbersByThePaper,
            LimitSlip::RulesByThePaper,
            LimitSlip::FlagsNotCounted,
            LimitSlip::FlagsOneLess,
            LimitSlip::FlagsBeforeRange,
            LimitSlip::FlagsBeforeTwice,
            LimitSlip::ShortCellsTaken,
            LimitSlip::ShortLiteralsTaken,
        ],
    );
    for slip in slips {
        let differs = |index: u64| {
            let drawn = books::drawn_onto_slices(seed, index);
            books::held_onto_slices(&drawn, Some(slip)).is_err()
        };
        assert!((0..6_000).any(differs), "{slip:?}");
    }
}

/// .. and so is each of the card answered last.
#[test]
fn every_slip_of_the_last_card_is_told_apart() {
    let seed = seed();
    for (slip, words) in last_card::ALL {
        let differs = |index: u64| {
            let held = lines::held(seed, index, Some(*slip), &mut Counts::default());
            held.expect("a drawn book opens").1.error.is_some()
        };
        assert!((0..8_000).any(differs), "{slip:?}: {words}");
    }
}

/// Texts near the longest, and lines near the longest, whatever they hold.
#[test]
fn long_texts() {
    let (seed, counts) = (seed(), &mut Counts::default());
    let mut random = Random::new(seed);
    for length in [65_535, 65_536, 65_537, 70_000, 200_000] {
        for filler in [&b" 1"[..], b"(", b"\n", b"(rule 1)\n", b" (no 40)", b"9", b" ", b"x"] {
            let mut text = b"(book 1)\n(flags 1 2)\n(rule 1".to_vec();
            while text.len() < length {
                text.extend(filler);
            }
            text.truncate(length - 8);
            text.extend(b")\n(end)\n");
            text.resize(length, b'\n');
            for limits in [(40, 255), (1_000, 4_000)] {
                hold_text(&text, limits).unwrap_or_else(|error| panic!("{length}: {error}"));
            }
            let mut line = text.split_off(21);
            line.resize(length, b')');
            let case = draw(Source::Opened, seed, random.below(40) as u64).case;
            let said = Both::new(case.slices).hold(&line, u64::MAX, counts);
            said.unwrap_or_else(|error| panic!("{length}: {error}"));
        }
    }
}

/// Sessions with faults in their lines, on opened books and on given and malformed states.
#[test]
fn random_lines() {
    let (seed, mut counts) = (seed(), Counts::default());
    rounds(2_000, |index| {
        lines::round(seed, index, &mut counts).unwrap_or_else(|error| panic!("{error}"));
    });
    println!("{counts}");
    assert!(timed() || counts.has(&[1, 3, 5, 6, 7, 8, 20, 21, 22, 31, 32, 34, 35, 36]), "{counts}");
    assert!(timed() || counts.calls.len() == 11, "{counts}");
}

/// Calls that take a ceiling, calls that take none, and lines that are no call, each without its end.
const HEADS: &str = "(card|(card 4|(card 3|(card 65537|(card (no 4)|(keep-card|(keep-card 4|(query|(query 1|\
    (query 1 2|(query 1 (no 2)|(query (no 2)|(query 3|(query 01|(closest 1 (no 2)|(closest 1 2 (bytes 3)|(closest 1|(one 1 2|(one|(rule|(rule 1|(withdraw|(forget|(write|(write 200|(page 1|(page|(end|(cards|(|";

/// What stands where the number of a ceiling belongs.
const NUMBERS: &str =
    "|0|1|2|3|8|9|10|11|12|00|01|+1|-1|1a|0x1| 1|1 |1 1|(no 1)|(1)|\t1|999999999|1000000000|\
    4294967294|4294967295|4294967296|4294967305|9999999999|04294967295|10000000000|42949672950|\
    18446744073709551616|18446744073709551626";

/// The item itself, and forms near it; `#` is the number.
const ITEMS: &str =
    " (ceiling #)|(ceiling #)|  (ceiling #)| (ceiling#)| ceiling #| (Ceiling #)| (ceilings #)| (ceiling #| (ceiling #))";

const ENDS: &str = ")||) |))| )| 4)| (ceiling 11))|(ceiling 11))";

/// The item of a ceiling in many forms and places, on every call.
#[test]
fn lines_with_a_ceiling() {
    let book = b"(book 1)\n(flags 1 2)\n(exists 3)\n(forall 4)\n(rule 3 4 (no 1))\n\
        (rule (no 3) (no 4) 2)\n(rule 1 2)\n(end)\n";
    let (mut said, counts) = (std::collections::BTreeSet::new(), &mut Counts::default());
    for head in HEADS.split('|') {
        let opened = library::open(book, &Room::of(&Limits::PAPER)).expect("guards");
        let mut both = Both::new(opened.slices);
        let mut hold = |line: &[u8], number| {
            both.hold(line, number, counts).unwrap_or_else(|error| panic!("{error}"))
        };
        for number in NUMBERS.split('|') {
            for item in ITEMS.split('|').map(|item| item.replace('#', number)) {
                for end in ENDS.split('|') {
                    let line = format!("{head}{item}{end}");
                    let answer = hold(line.as_bytes(), 9);
                    said.insert(kind(answer));
                    let paged = hold(b"(page 1)", 10);
                    let stopped = answer == Said::Refused(34) && head.contains("card");
                    assert!(!stopped || paged == Said::Refused(36), "{line}");
                    // So that the next search needs as much.
                    hold(b"(forget)", 11);
                }
            }
        }
    }
    println!("{said:?}");
    let told = ["1", "8", "21", "34", "Keep", "Swap", "lines"];
    assert!(told.iter().all(|kind| said.contains(*kind)), "{said:?}");
}

fn kind(said: Said) -> String {
    match said {
        Said::Refused(number) => number.to_string(),
        Said::Lines(_) => "lines".into(),
        Said::Closest(_) => "closest".into(),
        Said::Written(_) => "written".into(),
        said => format!("{said:?}"),
    }
}

/// A page that is too short is zeroed, and nothing else is done; one that is just long enough is
/// written, whatever the answer is.
#[test]
fn short_pages() {
    let case = draw(Source::Opened, seed(), 3).case;
    let books: [&[u8]; 2] = [b"(book 1)\n(flags 1)\n(rule 1)\n(end)\n", b"(book 3)\n"];
    let lines: [&[u8]; 6] =
        [b"(forget)", b"(withdraw)", b"(rule)", b"(card)", b"(keep-card)", b"x"];
    for length in [0, 1, 15, 1_000, room() - 1, room()] {
        let fits = length == room();
        for book in books {
            let printed = Page::new(length).print(book, &Room::of(&Limits::PAPER)).unwrap();
            assert_eq!(printed.is_some(), fits, "{length} bytes");
        }
        for line in lines {
            let mut cards = Cards::none();
            let before = cards.clone();
            let mut slices = case.slices.clone();
            let text = Page::new(length).line(&mut slices, line, 7, &mut cards).unwrap();
            assert_eq!(text.is_some(), fits, "{length} bytes");
            assert!(fits || slices == case.slices && cards == before, "{length} bytes");
        }
    }
}

/// Whatever is handed in as the card answered last, a page is one of what it tells, or 36.
#[test]
fn cards_of_any_bytes() {
    let given = draw(Source::Opened, seed(), 3).case.slices;
    let mut random = Random::new(seed());
    let mut printed = 0;
    rounds(3_000, |_| {
        let any = [0, 1, 2, 22, 45, 3_000, 65_536, 65_537, 99_999, 100_000, usize::MAX];
        let (size, lines) = (random.pick(&any), random.pick(&any));
        let flags = random.pick(&[0, 0, 1, 1, 2, 5, 40, 64, 65, usize::MAX]);
        let number = random.pick(&[0, 1, 1, 1, 2, 3, 137, 4_546, 4_547, 99_999]);
        let refusal = random.pick(&[0, 0, 0, 21, 36]);
        let mut table = vec![random.pick(&[0, 1, 2]); 65_536];
        table[random.below(65_536)] = random.pick(&[0, 1, 2, 3, 255]);
        let told = Shown { refusal, size, lines, flags };
        let (mut slices, mut cards) = (given.clone(), Cards { shown: told, table });
        let before = cards.clone();
        let asked = format!("(page {number})");
        let text = with_page(|page| page.line(&mut slices, asked.as_bytes(), 9, &mut cards));
        let held = Card { table: &cards.table[..size.min(65_536)], lines, flags };
        let expected = match held.page(number, None) {
            Ok(rows) if refusal == 0 => rows,
            _ => b"(refused 36 9)\n".to_vec(),
        };
        printed += u64::from(expected.len() > 20);
        assert!(text == Ok(Some(expected)), "{told:?} {asked}");
        assert!(cards == before && slices == given, "{told:?} {asked}");
    });
    assert!(timed() || printed > 100, "only {printed} pages");
}

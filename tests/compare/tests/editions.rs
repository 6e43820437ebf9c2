//! Both editions and exactly-one forms: what opens, what is refused, and conversions that undo each
//! other.

use compare::editions::{open, tagged, untagged, EditionSlip, Reads, ALL};
use compare::finder::Shape;
use compare::random::Random;
use compare::text::LARGEST_TEXT;
use compare::{write, Limits, Options};

fn refusal(text: &str, reads: Reads, slip: Option<EditionSlip>) -> Option<(u8, usize)> {
    let fault = open(text.as_bytes(), reads, &Options::paper(), slip).err();
    fault.map(|fault| (fault.number, fault.line))
}

/// The lines of a book of edition 1 or 2 after its flags 1 to 4.
fn book(edition: u8, lines: &str) -> String {
    format!("(book {edition})\n(flags 1 2 3 4)\n{lines}")
}

fn full(edition: u8, rules: usize, lines: &str) -> String {
    let rule = if edition == 1 { "(rule 1)\n" } else { "(rule (tag 7) 1)\n" };
    book(edition, &(rule.repeat(rules) + lines))
}

/// Texts, and the refusal of a reader of both.
fn rows() -> Vec<(String, Option<(u8, usize)>)> {
    let seventeen = format!("(one{})\n", " 1".repeat(17));
    vec![
        (book(1, "(rule 3 (no 1))\n(one 2 1)\n(end)\n"), None),
        (book(2, "(rule (tag 9) 3)\n(rule (tag 9) 4)\n(one 2 1)\n(end)\n"), None),
        (book(3, "(end)\n"), Some((2, 1))),
        (book(1, "(one)\n"), Some((7, 3))),
        (book(1, "(one 1)\n"), Some((7, 3))),
        (book(1, "(one )\n"), Some((1, 3))),
        (book(1, &seventeen), Some((7, 3))),
        (book(1, "(one 41 1)\n"), Some((3, 3))),
        (book(1, "(one 1 9)\n"), Some((5, 3))),
        (book(1, "(one 1 (no 1))\n"), Some((6, 3))),
        (book(1, "(one 1 2)\n(exists 5)\n"), Some((1, 4))),
        (book(1, "(one (tag 1) 1 2)\n"), Some((1, 3))),
        (full(1, 252, "(one 1 2 3)\n"), Some((20, 255))),
        (full(1, 251, "(one 1 2 3)\n(rule 1)\n"), Some((20, 255))),
        (full(1, 252, "(one 1)\n"), Some((7, 255))),
        (full(1, 255, "(one 1)\n"), Some((7, 258))),
        (book(1, "(rule (tag 5) 1)\n"), Some((1, 3))),
        (book(2, "(rule 1)\n"), Some((1, 3))),
        (book(2, "(rule)\n"), Some((1, 3))),
        (book(2, "(rule 1 (tag 5))\n"), Some((1, 3))),
        (book(2, "(rule (tag 5) (tag 5) 1)\n"), Some((1, 3))),
        (book(2, "(rule (tag 05) 1)\n"), Some((1, 3))),
        (book(2, "(rule (tag 100000) 1)\n"), Some((1, 3))),
        (book(2, "(rule (tag 5))\n"), Some((7, 3))),
        (book(2, "(rule (tag 0))\n"), Some((39, 3))),
        (book(2, "(rule (tag 65536) 1)\n"), Some((39, 3))),
        (book(2, "(rule (tag 65535) 9)\n"), Some((5, 3))),
        (full(2, 255, "(rule (tag 0))\n"), Some((20, 258))),
    ]
}

#[test]
fn readings_of_the_paper() {
    for (text, expected) in rows() {
        assert_eq!(refusal(&text, Reads::Both, None), expected, "{text}");
    }
    assert_eq!(refusal(&book(2, "(end)\n"), Reads::First, None), Some((2, 1)));
    assert_eq!(refusal(&book(1, "(end)\n"), Reads::Second, None), Some((2, 1)));
}

/// "the rule of all its literals, then one rule for each pair as given .. with both negated", each
/// held in place order.
#[test]
fn the_rules_of_a_form() {
    let text = "(book 1)\n(flags 3 1 2)\n(exists 4)\n(one 4 3 2 (no 1))\n(end)\n";
    let formula = open(text.as_bytes(), Reads::Both, &Options::paper(), None).expect("a book");
    let rules: [&[i16]; 7] =
        [&[3, -1, 2, 4], &[-3, -4], &[-2, -4], &[1, -4], &[-3, -2], &[-3, 1], &[1, -2]];
    assert_eq!(formula.clauses, rules);
}

/// A book's text with some exactly-one forms put among its rules.
fn with_forms(random: &mut Random, attempt: usize) -> Vec<u8> {
    let formula = Shape::of_attempt(attempt).formula(random);
    let own = write::text(&formula, &Options::paper());
    let mut lines: Vec<String> = own.lines().map(String::from).collect();
    let rules = lines.iter().position(|line| line.starts_with("(rule")).unwrap_or(lines.len() - 1);
    let numbers: Vec<i16> = formula.prefix.iter().map(|variable| variable.number).collect();
    for _ in 0..random.below(3) {
        if numbers.len() > 1 {
            let form = format!("(one {} (no {}))", numbers[0], numbers[1]);
            lines.insert(random.between(rules, lines.len() - 1), form);
        }
    }
    (lines.join("\n") + "\n").into_bytes()
}

/// "there the two conversions, where not refused, undo each other"; "finds equal rules".
#[test]
fn conversions_undo_each_other() {
    let options = Options::paper();
    let mut random = Random::new(20_251);
    for attempt in 0..3_000 {
        let first = with_forms(&mut random, attempt);
        let Ok(formula) = open(&first, Reads::Both, &options, None) else { continue };
        let second = tagged(&first, LARGEST_TEXT, &options, None).expect("a book of edition 1");
        assert_eq!(open(&second, Reads::Both, &options, None), Ok(formula));
        assert_eq!(untagged(&second, LARGEST_TEXT, &options, None), Ok(first.clone()));
        assert_eq!(tagged(&first, second.len() - 1, &options, None).unwrap_err().number, 31);
    }
}

/// What a conversion answers, for the rows of conversions.
fn conversions(slip: Option<EditionSlip>) -> Vec<Result<Vec<u8>, (u8, usize)>> {
    let options = Options::paper();
    let eleven = full(1, 11, "(one 1 2)\n(rule 2)\n(end)\n");
    let tags = |tags: &[usize], after: &str| {
        let rules: String = tags.iter().map(|tag| format!("(rule (tag {tag}) 1)\n")).collect();
        book(2, &(rules + after))
    };
    let limits = Limits { clauses: 4_000, ..Limits::PAPER };
    let rule =
        format!("(rule{})\n", (1..=4).map(|number| format!(" (no {number})")).collect::<String>());
    let long = book(1, &(rule.repeat(1_600) + "(end)\n"));
    let number = |fault: compare::text::TextRefusal| (fault.number, fault.line);
    let mut answers = vec![];
    for table in [LARGEST_TEXT, 200, 90] {
        for text in [&eleven, &book(1, "(rule 1)\n(end)\n"), &book(2, "(end)\n")] {
            answers.push(tagged(text.as_bytes(), table, &options, slip).map_err(number));
        }
        for text in [
            tags(&[1, 2], "(end)\n"),
            tags(&[1, 3, 4], "(end)\n"),
            tags(&[2], "(end)\nx"),
            tags(&[2], "(rule (tag 3) 9)\n(end)\n"),
            tags(&[1], "(one 1 2)\n(rule (tag 2) 1)\n(end)\n"),
            book(1, "(end)\n"),
        ] {
            answers.push(untagged(text.as_bytes(), table, &options, slip).map_err(number));
        }
    }
    let exact = tagged(eleven.as_bytes(), LARGEST_TEXT, &options, None).expect("a book").len();
    answers.push(tagged(eleven.as_bytes(), exact - 1, &options, slip).map_err(number));
    answers.push(tagged(long.as_bytes(), 80_000, &Options::with(limits), slip).map_err(number));
    answers
}

#[test]
fn refused_conversions() {
    let text = book(2, "(rule (tag 1) 1)\n(rule (tag 3) 1)\n(end)\n");
    let fault = untagged(text.as_bytes(), 0, &Options::paper(), None).unwrap_err();
    assert_eq!((fault.number, fault.line), (40, 4));
    let later = text + "x";
    let fault = untagged(later.as_bytes(), 100, &Options::paper(), None).unwrap_err();
    assert_eq!((fault.number, fault.line), (1, 6));
}

/// Every slip shows in a row, in what a form adds, or in a conversion.
#[test]
fn every_slip_is_noticed() {
    let form = book(1, "(one 1 2 3 4)\n(end)\n");
    let opens = |slip| open(form.as_bytes(), Reads::Both, &Options::paper(), slip);
    let second = book(2, "(end)\n");
    for &(slip, name) in ALL {
        let slipped = Some(slip);
        let row = rows().iter().any(|(t, e)| refusal(t, Reads::Both, slipped) != *e);
        let first = refusal(&second, Reads::First, slipped) != Some((2, 1));
        let noticed = row || first || opens(slipped) != opens(None);
        assert!(noticed || conversions(slipped) != conversions(None), "{name} is not noticed");
    }
}

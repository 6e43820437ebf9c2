//! Texts: refusal number and line for each reading of the layout.

use compare::text::{card_program, open, LARGEST_TEXT};
use compare::Options;

fn refusal(text: &str) -> Option<(u8, usize)> {
    open(text.as_bytes(), &Options::paper()).err().map(|refused| (refused.number, refused.line))
}

/// The refusal of a text whose third line and those after it are given.
fn body(lines: &str) -> Option<(u8, usize)> {
    refusal(&format!("(book 1)\n(flags 1 2)\n{lines}"))
}

#[test]
fn first_lines_and_ends() {
    assert_eq!(refusal(""), Some((1, 1)));
    assert_eq!(refusal("\n"), Some((1, 1)));
    assert_eq!(refusal("(book 2)"), Some((1, 1)));
    for edition in ["0", "3", "99999"] {
        assert_eq!(refusal(&format!("(book {edition})\n")), Some((2, 1)));
    }
    for line in ["(book 01)", "(book)", "(book 1 1)", "(Book 1)", "(book 1) ", "(book (no 1))"] {
        assert_eq!(refusal(&format!("{line}\n")), Some((1, 1)), "{line}");
    }
    assert_eq!(refusal("(book 1)\n(end)\n"), Some((1, 2)));
    assert_eq!(refusal("(book 1)\n(flags)\n(end)\n"), None);
    assert_eq!(body(""), Some((1, 3)));
    assert_eq!(body("(end)"), Some((1, 3)));
    assert_eq!(body("(end)\r\n"), Some((1, 3)));
    assert_eq!(body("(end)\n\n"), Some((1, 4)));
    assert_eq!(body("(end)\nx"), Some((1, 4)));
}

#[test]
fn layout_of_a_line() {
    let bad = [
        "(rule )",
        "(rule 1 )",
        "(rule  1)",
        "(rule1)",
        "(rule (no 1)1)",
        "(rule (no))",
        "(rule -1)",
        "(rule (no 1 2))",
        "(rule (no (no 1)))",
        "(rule +1)",
        "(rule 00)",
        "(rule 01)",
        "(rule\t1)",
        "(rule 100000)",
        "(rule 1",
        "rule 1)",
        "(rule 1))",
        "(exists)",
        "(forall)",
        "(flags 3)",
        "",
        "(exists (no 3))",
        "(RULE 1)",
        " (rule 1)",
        "(no 1)",
        "(end 1)",
        "(end )",
        "(book 1)",
    ];
    for line in bad {
        assert_eq!(body(&format!("{line}\n(end)\n")), Some((1, 3)), "{line}");
    }
    assert_eq!(body("(rule 1)\n(exists 3)\n(end)\n"), Some((1, 4)));
}

#[test]
fn refusals_of_numbers() {
    assert_eq!(refusal("(book 1)\n(flags 41 01)\n"), Some((1, 2)));
    assert_eq!(refusal("(book 1)\n(flags 1 41)\n"), Some((3, 2)));
    assert_eq!(refusal("(book 1)\n(flags 1 1 0)\n"), Some((4, 2)));
    assert_eq!(body("(exists 3)\n(forall 3)\n"), Some((4, 4)));
    let rules = [
        ("(rule)", 7),
        ("(rule 0)", 3),
        ("(rule (no 0))", 3),
        ("(rule 41)", 3),
        ("(rule 65537)", 3),
        ("(rule 99999)", 3),
        ("(rule 3)", 5),
        ("(rule 1 (no 1))", 6),
        ("(rule 1 1 41)", 6),
        ("(rule 41 2 1 1)", 3),
        ("(rule 1 1 1 1 1 1 1 1 1 1 1 1 1 1 1 1)", 6),
        ("(rule 0 1 1 1 1 1 1 1 1 1 1 1 1 1 1 1 1)", 7),
    ];
    for (line, number) in rules {
        assert_eq!(body(&format!("{line}\n(nonsense\n")), Some((number, 3)), "{line}");
    }
}

#[test]
fn rule_256_and_long_texts() {
    let rules = "(rule 1)\n".repeat(255);
    assert_eq!(body(&format!("{rules}(end)\n")), None);
    assert_eq!(body(&format!("{rules}(rule)\n(end)\n")), Some((20, 258)));
    let long = |length: usize| refusal(&"x".repeat(length));
    assert_eq!(long(LARGEST_TEXT), Some((1, 1)));
    assert_eq!(long(LARGEST_TEXT + 1), Some((9, 0)));
}

#[test]
fn what_the_program_prints() {
    let printed = |text: &str| card_program(text.as_bytes(), &Options::paper());
    assert_eq!(printed("(book 3)\n"), "(refused 2 1)\n");
    assert_eq!(printed(&"x".repeat(LARGEST_TEXT + 1)), "(refused 9 0)\n");
    assert_eq!(printed("(book 1)\n(flags 1 2)\n(end)\n"), "(card 1)\n(line)\n(visits 1)\n(end)\n");
}

/// A text with pairs of flags that have to be equal: 2 lines for each pair, all topmost.
fn equal_pairs(pairs: usize) -> String {
    let flags: Vec<String> = (1..=2 * pairs).map(|number| number.to_string()).collect();
    let mut text = format!("(book 1)\n(flags {})\n", flags.join(" "));
    for pair in flags.chunks(2) {
        text += &format!("(rule {} (no {}))\n(rule (no {0}) {1})\n", pair[0], pair[1]);
    }
    text + "(end)\n"
}

/// 4,096 lines of 24 bytes do not fit into the program's 65,536; 1,024 of 20 bytes do.
#[test]
fn a_card_too_large() {
    let printed = |pairs| card_program(equal_pairs(pairs).as_bytes(), &Options::paper());
    assert_eq!(printed(12), "(refused 21 0)\n");
    assert_eq!(printed(10).matches("(line ").count(), 1024);
}

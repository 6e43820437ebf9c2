//! Random texts: books, call lines, books as QDIMACS, and all of them with a fault.

use compare::qdimacs::{by_place, lines};
use compare::random::Random;
use compare::{Call, Formula, Quantifier, Reading};

/// A book of a formula: its literals in any order, a group at times in two parts.
pub fn book(formula: &Formula, random: &mut Random) -> Vec<u8> {
    let mut text = String::from("(book 1)\n(flags");
    let mut last = Quantifier::Free;
    for variable in &formula.prefix {
        let word = match variable.quantifier {
            Quantifier::Free => "flags",
            Quantifier::Exists => "exists",
            Quantifier::Forall => "forall",
        };
        let splits = last != Quantifier::Free && random.one_in(5);
        if variable.quantifier != last || splits {
            text.push_str(&format!(")\n({word}"));
            last = variable.quantifier;
        }
        text.push_str(&format!(" {}", variable.number));
    }
    text.push_str(")\n");
    for clause in &formula.clauses {
        let mut literals = clause.clone();
        if random.one_in(2) {
            random.shuffle(&mut literals);
        }
        text.push_str(&format!("(rule{})\n", items(&literals)));
    }
    (text + "(end)\n").into_bytes()
}

/// A book as QDIMACS: its variables are named by place, so that the flags are in rising number. Comments
/// and runs of spaces stand here and there.
pub fn qdimacs(formula: &Formula, random: &mut Random) -> Vec<u8> {
    let mut named = by_place(formula);
    for clause in &mut named.clauses {
        random.shuffle(clause);
    }
    let mut text = String::new();
    for line in lines(&named, || random.one_in(5)) {
        if random.one_in(8) {
            text.push_str(random.pick(&["c\n", "c 1 0\n", "cnf\t\n"]));
        }
        let words: Vec<&str> = line.split(' ').collect();
        text.push_str(&words.join(random.pick(&[" ", " ", " ", "  ", "    "])));
        text.push('\n');
    }
    text.into_bytes()
}

/// A call's line without its byte 10, with its ceiling where one is given: no layout of a call that takes none.
pub fn line(call: &Call, ceiling: Option<u32>) -> Vec<u8> {
    let mut text: String = match call {
        Call::Rule(literals) => format!("(rule{})", items(literals)),
        Call::One(literals) => format!("(one{})", items(literals)),
        Call::Withdraw => "(withdraw)".into(),
        Call::Query(reading) => format!("(query{})", items(&literals(reading))),
        Call::Card(65_536) => "(card)".into(),
        Call::Card(length) => format!("(card {length})"),
        Call::KeepCard(65_536) => "(keep-card)".into(),
        Call::KeepCard(length) => format!("(keep-card {length})"),
        Call::Closest(reading, 65_536) => format!("(closest{})", items(&literals(reading))),
        Call::Closest(reading, length) => {
            format!("(closest{} (bytes {length}))", items(&literals(reading)))
        }
        Call::Forget => "(forget)".into(),
        Call::Write(compare::write::WHOLE) => "(write)".into(),
        Call::Write(length) => format!("(write {length})"),
    };
    if let Some(ceiling) = ceiling {
        text.truncate(text.len() - 1);
        text.push_str(&format!(" (ceiling {ceiling}))"));
    }
    text.into_bytes()
}

/// The flags of a reading, on and off by turns: their order is free. A negative number has no form in a line: it
/// stands in the other list there.
fn literals(Reading { on, off }: &Reading) -> Vec<i16> {
    let mut found = vec![];
    for index in 0..on.len().max(off.len()) {
        found.extend(on.get(index).copied());
        found.extend(off.get(index).map(|number| number.saturating_neg()));
    }
    found
}

fn items(literals: &[i16]) -> String {
    let item = |&literal: &i16| match literal < 0 {
        true => format!(" (no {})", literal.unsigned_abs()),
        false => format!(" {literal}"),
    };
    literals.iter().map(item).collect()
}

/// What faults of a form put into a text.
pub struct Faults {
    words: &'static [&'static str],
    bytes: &'static [u8],
    lines: &'static [&'static str],
    ends: &'static [&'static str],
}

const OWN: Faults = Faults {
    words: &[
        "0",
        "1",
        "40",
        "41",
        "00",
        "01",
        "255",
        "256",
        "1000",
        "1001",
        "99999",
        "100000",
        "32767",
        "32768",
        "65536",
        "65537",
        "(no 1)",
        "(no 0)",
        "(no",
        "rule",
        "flags",
        "exists",
        "forall",
        "query",
        "end",
        "card",
        "write",
        "page",
        "withdraw",
        "one",
        "closest",
        "(bytes 4)",
        "(bytes 65536)",
        "(bytes 65537)",
        "(bytes",
        "(tag 1)",
        "(tag 0)",
        "(tag 65536)",
        "(tag",
        "(ceiling 0)",
        "(ceiling 7)",
        "(ceiling 40)",
        "(ceiling 4294967295)",
        "(ceiling 4294967296)",
        "(ceiling 10000000000)",
        "(ceiling 00)",
        "(ceiling 07)",
        "(ceiling)",
        "(ceiling",
        "ceiling",
        "7)",
        "(ceiling 7))",
        "keep-card",
        "4294967295",
        "4294967296",
        "4294967305",
    ],
    bytes: b" ()()0129\n\n\t\rano\0\xff\x80",
    lines: &[
        "\n",
        "(rule)\n",
        "(flags)\n",
        "(exists)\n",
        "(book 1)\n",
        "(book 2)\n",
        "(book 99999)\n",
        "(one 1 2)\n",
        "(one 1)\n",
        "(rule (tag 7) 1)\n",
    ],
    ends: &["\n", " ", "(end)\n", "x", "(rule)\n"],
};

pub const QDIMACS: Faults = Faults {
    words: &[
        "0", "-0", "1", "-1", "2", "-2", "40", "-40", "41", "-41", "00", "01", "-01", "99999",
        "-99999", "100000", "-32768", "65537", "+1", "--1", "-", "c", "p", "cnf", "e", "a",
    ],
    bytes: b"  -0129\n\n\t\rceap\0\xff\x80",
    lines: &[
        "\n",
        "c\n",
        "c 1 0\n",
        "cnf\n",
        "C\n",
        "0\n",
        "-0\n",
        "e 0\n",
        "a 0\n",
        "e -1 0\n",
        "e 1 0\n",
        "a 2 0\n",
        "1 0\n",
        "1 0 2 0\n",
        "-1 0\n",
        "p cnf 1 1\n",
        "p cnf 0 0\n",
        "p cnf 41 0\n",
    ],
    ends: &["\n", " ", "c\n", "c", "c x", "1 0\n", "1 0", "0\n", "\r\n", "\t", "x"],
};

/// One fault or a few, which may leave a text that is in the layout.
pub fn spoil(text: &mut Vec<u8>, random: &mut Random) {
    OWN.spoil(text, random);
}

impl Faults {
    /// One fault or a few, which may leave a text that is in the form.
    pub fn spoil(&self, text: &mut Vec<u8>, random: &mut Random) {
        for _ in 0..random.pick(&[1, 1, 1, 2, 4]) {
            match random.below(10) {
                0 => {
                    text.insert(random.below(text.len() + 1), random.pick(self.bytes));
                }
                1 if !text.is_empty() => {
                    text.remove(random.below(text.len()));
                }
                2 if !text.is_empty() => {
                    let index = random.below(text.len());
                    text[index] = random.pick(self.bytes);
                }
                3 => text.truncate(random.below(text.len() + 1)),
                4 => text.extend(random.pick(self.ends).bytes()),
                5..=6 => self.lines(text, random),
                _ => self.words(text, random),
            }
        }
    }

    /// A line taken out, doubled, moved or replaced.
    fn lines(&self, text: &mut Vec<u8>, random: &mut Random) {
        let mut lines: Vec<Vec<u8>> =
            text.split_inclusive(|&byte| byte == b'\n').map(<[u8]>::to_vec).collect();
        if lines.is_empty() {
            return;
        }
        let (one, other) = (random.below(lines.len()), random.below(lines.len()));
        match random.below(5) {
            0 => drop(lines.remove(one)),
            1 => lines.insert(other, lines[one].clone()),
            2 => lines.swap(one, other),
            _ => lines[one] = random.pick(self.lines).into(),
        }
        *text = lines.concat();
    }

    /// A word replaced, doubled or taken out.
    fn words(&self, text: &mut Vec<u8>, random: &mut Random) {
        let mut words: Vec<Vec<u8>> =
            text.split(|&byte| byte == b' ').map(<[u8]>::to_vec).collect();
        let index = random.below(words.len());
        let (word, end) = {
            let all = &words[index];
            let length = all.iter().take_while(|byte| byte.is_ascii_alphanumeric()).count();
            (all[..length].to_vec(), all[length..].to_vec())
        };
        match random.below(4) {
            0 => words.insert(index, word),
            1 if words.len() > 1 => drop(words.remove(index)),
            2 => {
                for _ in 0..random.between(1, 45) {
                    words.insert(index, random.pick(self.words).into());
                }
            }
            _ => words[index] = [random.pick(self.words).as_bytes(), &end].concat(),
        }
        *text = words.join(&b' ');
    }
}

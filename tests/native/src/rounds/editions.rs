//! Texts converted between the editions.

use super::{limits_near, numbers, shown, smallest_text, Counts};
use crate::budget::Walk;
use crate::generate::{Book, SHAPES};
use crate::text::{self as library, Converted, Room};
use crate::texts;
use compare::editions::{self, EditionSlip};
use compare::random::Random;
use compare::text::{TextRefusal, LARGEST_TEXT};
use compare::{Formula, Limits, Options};

/// From edition 1 to 2, or from 2 to 1.
#[derive(Clone, Copy, Debug)]
pub enum To {
    Second,
    First,
}

impl To {
    pub fn back(self) -> To {
        match self {
            To::Second => To::First,
            To::First => To::Second,
        }
    }
}

/// A text, where to convert it to, at times the wrong edition, and under which limits.
#[derive(Clone, Debug)]
pub struct Drawn {
    pub to: To,
    pub text: Vec<u8>,
    pub limits: (usize, usize),
}

impl Drawn {
    pub fn found(&self, size: usize) -> Result<(Converted, Vec<u8>), String> {
        let convert = match self.to {
            To::Second => library::tag,
            To::First => library::untag,
        };
        convert(&self.text, &Room::under(self.limits), size)
    }

    /// "returns the length and zeroes the rest of its table, all of it when refused".
    pub fn expected(&self, size: usize, slip: Option<EditionSlip>) -> (Converted, Vec<u8>) {
        let convert = match self.to {
            To::Second => editions::tagged,
            To::First => editions::untagged,
        };
        let options = Options::with(Limits::own(self.limits.0, self.limits.1));
        match convert(&self.text, size, &options, slip) {
            Ok(mut table) => {
                let length = table.len();
                table.resize(size, 0);
                (Converted { refusal: 0, line: 0, length }, table)
            }
            Err(TextRefusal { number, line }) => {
                (Converted { refusal: number.into(), line, length: 0 }, vec![0; size])
            }
        }
    }

    /// On both sides, with a slip of the other one.
    pub fn held(&self, size: usize, slip: Option<EditionSlip>) -> Result<u16, String> {
        let (found, expected) = (self.found(size)?, self.expected(size, slip));
        if found.0 != expected.0 {
            return Err(format!("{:?}, not {:?}", found.0, expected.0));
        }
        match found.1 == expected.1 {
            true => Ok(found.0.refusal),
            false => Err("the tables differ".into()),
        }
    }

    /// A table about as long as the converted text, or as the longest text, or longer.
    pub fn size(&self, index: u64) -> usize {
        let random = &mut Random::new(index);
        if self.text.len() > LARGEST_TEXT / 3 {
            return random.pick(&[LARGEST_TEXT, LARGEST_TEXT + 400]);
        }
        let whole = self.expected(LARGEST_TEXT, None).0.length;
        random.pick(&[whole, whole, whole + 1, whole.saturating_sub(1), 0, 9, LARGEST_TEXT])
    }
}

/// A book of either edition with exactly-one forms, its tags at times others than 1, 2, 3, most of them
/// with a fault.
pub fn drawn(seed: u64, index: u64) -> Drawn {
    let random = &mut numbers(seed, 13, index);
    if random.one_in(30) {
        return nearly_full(random);
    }
    if random.one_in(300) {
        return nearly_long(random);
    }
    let shape = SHAPES[index as usize % SHAPES.len()];
    let book = Book::draw(shape, Walk::Plain, random);
    let second = random.one_in(2);
    let mut text = text(&book.formula, second, random);
    if random.one_in(2) {
        texts::spoil(&mut text, random);
    }
    let wrong = random.one_in(12);
    let to = if second != wrong { To::First } else { To::Second };
    Drawn { to, text, limits: limits_near(&book, random) }
}

/// A book of either edition with exactly-one forms, its tags at times others than 1, 2, 3.
pub fn text(formula: &Formula, second: bool, random: &mut Random) -> Vec<u8> {
    let text = with_forms(&texts::book(formula, random), random);
    if !second {
        return text;
    }
    let tagged = editions::tagged(&text, usize::MAX, &Options::with(Limits::HIGHEST), None);
    let text = tagged.unwrap_or(text);
    if !random.one_in(4) {
        return text;
    }
    let other = random.pick(&["(tag 2)", "(tag 7)", "(tag 65535)", "(tag 0)", "(tag 11)"]);
    let tag = random.pick(&["(tag 1)", "(tag 2)", "(tag 10)"]);
    String::from_utf8_lossy(&text).replacen(tag, other, 1).into_bytes()
}

/// A book with room for one rule or none, and one form more.
fn nearly_full(random: &mut Random) -> Drawn {
    let second = random.one_in(2);
    let tag = |number: usize| if second { format!(" (tag {number})") } else { String::new() };
    let mut text = format!("(book {})\n(flags 1 2)\n", if second { 2 } else { 1 });
    let most = random.pick(&[255, 255, 3, 20]);
    let rules = random.between(most - 1, most + 1);
    (1..rules).for_each(|number| text.push_str(&format!("(rule{} 1)\n", tag(number))));
    let number = random.pick(&[rules, rules, 0, 65_536]);
    text.push_str(&match random.below(6) {
        0 => "(one 1)\n".into(),
        1 => "(one 1 2)\n".into(),
        2 => "(one 1 40)\n".into(),
        3 => format!("(rule{})\n", tag(number)),
        _ => format!("(rule{} 2)\n", tag(number)),
    });
    text.push_str("(end)\n");
    let to = if second { To::First } else { To::Second };
    Drawn { to, text: text.into_bytes(), limits: (random.pick(&[40, 2, 1]), most) }
}

/// A text near 65,536 bytes when it is converted, which needs more than 255 rules.
fn nearly_long(random: &mut Random) -> Drawn {
    let mut text = String::from("(book 1)\n(flags 1 1000)\n");
    // A rule of 9 bytes becomes one of 17 to 20.
    (0..random.between(3_325, 3_337)).for_each(|_| text.push_str("(rule 1)\n"));
    text.push_str("(end)\n");
    Drawn { to: To::Second, text: text.into_bytes(), limits: (1_000, 4_000) }
}

/// Exactly-one forms here and there among the rules.
fn with_forms(book: &[u8], random: &mut Random) -> Vec<u8> {
    let mut text = vec![];
    for line in book.split_inclusive(|&byte| byte == b'\n') {
        if line.starts_with(b"(rule") && random.one_in(6) {
            text.extend(random.pick(&[&b"(one 1 2)\n"[..], b"(one 2 (no 1))\n", b"(one 3 1 2)\n"]));
        }
        text.extend(line);
    }
    text
}

pub fn round(seed: u64, index: u64, counts: &mut Counts) -> Result<(), String> {
    counts.input("texts converted");
    let drawn = drawn(seed, index);
    let size = drawn.size(index);
    let of = |text: &[u8]| Drawn { text: text.to_vec(), ..drawn.clone() };
    let refusal = drawn.held(size, None).map_err(|error| {
        let differs = |text: &[u8]| of(text).held(size, None).is_err();
        let smallest = shown(&smallest_text(drawn.text.clone(), differs));
        let (to, limits) = (drawn.to, drawn.limits);
        format!("{index} of seed {seed}, {to:?}, {limits:?}, {size} bytes: {error}\n{smallest}")
    })?;
    counts.call("conversion", refusal);
    undone(&drawn, counts)
}

/// "the two conversions, where not refused, undo each other".
fn undone(drawn: &Drawn, counts: &mut Counts) -> Result<(), String> {
    let (there, table) = drawn.found(LARGEST_TEXT)?;
    counts.call("conversion", there.refusal);
    if there.refusal != 0 {
        return Ok(());
    }
    let text = table[..there.length].to_vec();
    let (back, again) =
        Drawn { to: drawn.to.back(), text, limits: drawn.limits }.found(drawn.text.len())?;
    counts.call("conversion", back.refusal);
    match (back.refusal, back.length, again == drawn.text) {
        (0, length, true) if length == drawn.text.len() => Ok(()),
        _ => Err(format!("{back:?}: not undone {:?}\n{}", drawn.to, shown(&drawn.text))),
    }
}

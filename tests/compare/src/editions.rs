//! "Edition 2 with rule tags", and exactly-one forms in a text: paper 02, wishes 13 and 10, written
//! from the paper alone.

use crate::formula::{Formula, Quantifier, Variable};
use crate::layout::{self, Form};
use crate::options::Options;
use crate::refusal;
use crate::text::{TextRefusal, LARGEST_TEXT};

mod slip;

pub use slip::{EditionSlip, ALL};

use EditionSlip as Slip;

/// "A reader of edition 1 given edition 2, or a conversion given the wrong edition, gives 2".
#[derive(Clone, Copy, Debug, PartialEq, Eq)]
pub enum Reads {
    First,
    Second,
    Both,
}

/// What a line says: a form of edition 1, a rule with its tag, or exactly one of some literals.
enum Line {
    Form(Form),
    Tagged(i32, Vec<i32>),
    One(Vec<i32>),
}

#[derive(Clone, Copy, PartialEq, Eq, PartialOrd)]
enum Stage {
    Book,
    Flags,
    Groups,
    Rules,
    Ended,
}

struct Reader<'a> {
    reads: Reads,
    options: &'a Options,
    slip: Option<Slip>,
    edition: i32,
    stage: Stage,
    formula: Formula,
}

/// Opens a text of the editions that are read: the book, or the first fault with its line.
pub fn open(
    text: &[u8],
    reads: Reads,
    options: &Options,
    slip: Option<Slip>,
) -> Result<Formula, TextRefusal> {
    if text.len() > LARGEST_TEXT {
        return Err(TextRefusal { number: 9, line: 0 });
    }
    let formula = Formula::default();
    let mut reader = Reader { reads, options, slip, edition: 0, stage: Stage::Book, formula };
    let mut rest = text;
    let mut line = 0;
    while reader.stage != Stage::Ended {
        line += 1;
        let refused = |number| TextRefusal { number, line };
        let end = rest.iter().position(|&byte| byte == b'\n').ok_or(refused(1))?;
        let read = read(&rest[..end]).ok_or(refused(1))?;
        reader.take(read).map_err(refused)?;
        rest = &rest[end + 1..];
    }
    match rest.is_empty() {
        true => Ok(reader.formula),
        false => Err(TextRefusal { number: 1, line: line + 1 }),
    }
}

fn read(line: &[u8]) -> Option<Line> {
    if let Some((tag, after)) = tag_of(line) {
        let Some(Form::Rule(literals)) = layout::read(&[b"(rule", after].concat()) else {
            return None;
        };
        return Some(Line::Tagged(tag, literals));
    }
    match layout::items(line)? {
        (b"one", items) => Some(Line::One(items.iter().map(|item| item.literal()).collect())),
        _ => layout::read(line).map(Line::Form),
    }
}

/// A rule form's tag, "in front of its literals", and what follows it.
fn tag_of(line: &[u8]) -> Option<(i32, &[u8])> {
    let rest = line.strip_prefix(b"(rule (tag ")?;
    let end = rest.iter().position(|&byte| byte == b')')?;
    Some((layout::number(&rest[..end])?, &rest[end + 1..]))
}

impl Reader<'_> {
    fn slips(&self, slip: Slip) -> bool {
        self.slip == Some(slip)
    }

    fn take(&mut self, line: Line) -> Result<(), u8> {
        self.stage = self.next_stage(&line).ok_or(1)?;
        match line {
            Line::Form(Form::Book(edition)) => self.take_edition(edition),
            Line::Form(Form::Flags(numbers)) => self.declare(&numbers, Quantifier::Free),
            Line::Form(Form::Exists(numbers)) => self.declare(&numbers, Quantifier::Exists),
            Line::Form(Form::Forall(numbers)) => self.declare(&numbers, Quantifier::Forall),
            // "A rule without a tag in edition 2 is 1"
            Line::Form(Form::Rule(_)) if self.edition == 2 && !self.slips(Slip::UntaggedRead) => {
                Err(1)
            }
            Line::Form(Form::Rule(literals)) => self.take_rule(&literals),
            Line::Tagged(..) if self.edition == 1 && !self.slips(Slip::TaggedInFirst) => Err(1),
            Line::Tagged(tag, literals) => self.take_tagged(tag, &literals),
            Line::One(literals) => self.take_one(&literals),
            Line::Form(Form::End) => Ok(()),
        }
    }

    fn next_stage(&self, line: &Line) -> Option<Stage> {
        match (self.stage, line) {
            (Stage::Book, Line::Form(Form::Book(_))) => Some(Stage::Flags),
            (Stage::Flags, Line::Form(Form::Flags(_))) => Some(Stage::Groups),
            (Stage::Groups, Line::Form(Form::Exists(_) | Form::Forall(_))) => Some(Stage::Groups),
            (Stage::Groups | Stage::Rules, Line::Form(Form::End)) => Some(Stage::Ended),
            (Stage::Groups | Stage::Rules, Line::Form(Form::Rule(_))) => Some(Stage::Rules),
            (Stage::Groups | Stage::Rules, Line::Tagged(..) | Line::One(_)) => {
                let stays = self.slips(Slip::GroupAfterOne) && matches!(line, Line::One(_));
                Some(if stays { self.stage } else { Stage::Rules })
            }
            _ => None,
        }
    }

    fn take_edition(&mut self, edition: i32) -> Result<(), u8> {
        self.edition = edition;
        let read = match self.reads {
            Reads::First => edition == 1 || edition == 2 && self.slips(Slip::SecondForFirst),
            Reads::Second => edition == 2,
            Reads::Both => edition == 1 || edition == 2,
        };
        if read {
            Ok(())
        } else {
            Err(2)
        }
    }

    fn declare(&mut self, numbers: &[i32], quantifier: Quantifier) -> Result<(), u8> {
        for &number in numbers {
            let refused = refusal::of_declaration(&self.formula, number, quantifier, self.options);
            if let Some(refused) = refused {
                return Err(refused);
            }
            self.formula.prefix.push(Variable { number: number as i16, quantifier });
        }
        Ok(())
    }

    fn take_rule(&mut self, literals: &[i32]) -> Result<(), u8> {
        if let Some(number) = refusal::of_rule(&self.formula, literals, self.options) {
            return Err(number);
        }
        self.add(literals);
        Ok(())
    }

    fn add(&mut self, literals: &[i32]) {
        let narrow: Vec<i16> = literals.iter().map(|&literal| literal as i16).collect();
        self.formula.add(&narrow);
    }

    /// "a tag out of range is 39, after 20 and before 7".
    fn take_tagged(&mut self, tag: i32, literals: &[i32]) -> Result<(), u8> {
        let last = if self.slips(Slip::TagOneMore) { 65_536 } else { 65_535 };
        let out_of_range = !(1..=last).contains(&tag);
        let full = self.formula.clauses.len() >= self.options.clause_limit();
        if out_of_range && self.slips(Slip::RangeAfterLength) {
            let length = literals.is_empty() || literals.len() > self.options.literal_limit();
            return Err(if full {
                20
            } else if length {
                7
            } else {
                39
            });
        }
        match (full && !self.slips(Slip::RangeBeforeFull), out_of_range) {
            (true, _) => Err(20),
            (_, true) => Err(39),
            _ => self.take_rule(literals),
        }
    }

    /// "two to 16 literals of distinct variables", 7 before 20; "20 counts them together".
    fn take_one(&mut self, literals: &[i32]) -> Result<(), u8> {
        let least = if self.slips(Slip::OneAlone) { 1 } else { 2 };
        let length = !(least..=self.options.literal_limit()).contains(&literals.len());
        let rules = 1 + literals.len() * literals.len().saturating_sub(1) / 2;
        let rules = if self.slips(Slip::RuleByRule) { 1 } else { rules };
        let full = self.formula.clauses.len() + rules > self.options.clause_limit();
        match (length, full) {
            (_, true) if self.slips(Slip::FullBeforeLength) => return Err(20),
            (true, _) => return Err(7),
            (_, true) => return Err(20),
            _ => self.take_rule(literals)?,
        }
        for (first, second) in self.pairs(literals.len()) {
            let both = [-literals[first], -literals[second]];
            let sides = if self.slips(Slip::OneSideNegated) { [both[0], -both[1]] } else { both };
            if self.formula.clauses.len() < self.options.clause_limit() {
                self.add(&sides);
            }
        }
        Ok(())
    }

    /// "first with second, first with third and so on".
    fn pairs(&self, count: usize) -> Vec<(usize, usize)> {
        let mut pairs: Vec<(usize, usize)> = (0..count)
            .flat_map(|first| (first + 1..count).map(move |next| (first, next)))
            .collect();
        if self.slips(Slip::PairsBySecond) {
            pairs.sort_by_key(|&(first, second)| (second, first));
        }
        pairs
    }
}

// ---- conversions

/// "Convert from 1 to 2 by tagging the rule forms 1, 2, 3 and so on".
pub fn tagged(
    text: &[u8],
    table: usize,
    options: &Options,
    slip: Option<Slip>,
) -> Result<Vec<u8>, TextRefusal> {
    open(text, Reads::First, options, slip)?;
    let mut converted = b"(book 2)".to_vec();
    for (rest, number) in numbered(text, slip) {
        converted.push(b'\n');
        match rest.strip_prefix(b"(rule") {
            Some(after) => {
                let tag = format!(" (tag {number})");
                let dropped = slip == Some(Slip::DigitDropped) && number > 9;
                let tag = if dropped { format!(" (tag {})", number % 10) } else { tag };
                let twice = slip == Some(Slip::TagTwice) && number > 1;
                let tag = if twice { tag.repeat(2) } else { tag };
                converted.extend([b"(rule", tag.as_bytes(), after].concat());
            }
            None => converted.extend(rest),
        }
    }
    fitted(converted, table, slip)
}

/// "Convert from 2 to 1 only where the tags are those".
pub fn untagged(
    text: &[u8],
    table: usize,
    options: &Options,
    slip: Option<Slip>,
) -> Result<Vec<u8>, TextRefusal> {
    let opened = open(text, Reads::Second, options, slip).map(|_| ());
    if slip != Some(Slip::LostBeforeFault) {
        opened?;
    }
    let mut converted = b"(book 1)".to_vec();
    for (index, (rest, number)) in numbered(text, slip).into_iter().enumerate() {
        converted.push(b'\n');
        match tag_of(rest) {
            // "a tag that would be lost in conversion is 40 at the first such line"
            Some((tag, _)) if tag as usize != number => {
                return Err(TextRefusal { number: 40, line: index + 2 })
            }
            Some((_, after)) => converted.extend([b"(rule", after].concat()),
            None => converted.extend(rest),
        }
    }
    opened?;
    fitted(converted, table, slip)
}

/// What the program `tag` prints for a text.
pub fn tag_program(text: &[u8], options: &Options, slip: Option<Slip>) -> Vec<u8> {
    printed(tagged(text, LARGEST_TEXT, options, slip))
}

/// What the program `untag` prints for a text.
pub fn untag_program(text: &[u8], options: &Options, slip: Option<Slip>) -> Vec<u8> {
    printed(untagged(text, LARGEST_TEXT, options, slip))
}

fn printed(converted: Result<Vec<u8>, TextRefusal>) -> Vec<u8> {
    let refused = |fault: TextRefusal| format!("(refused {} {})\n", fault.number, fault.line);
    converted.unwrap_or_else(|fault| refused(fault).into_bytes())
}

/// The lines after the first, each with the number of the next rule form; "exactly-one forms not
/// counted".
fn numbered(text: &[u8], slip: Option<Slip>) -> Vec<(&[u8], usize)> {
    let mut number = 1;
    let counts = |line: &[u8]| {
        line.starts_with(b"(rule") || slip == Some(Slip::OneCounted) && line.starts_with(b"(one")
    };
    let mut lines = vec![];
    for line in text.split(|&byte| byte == b'\n').skip(1) {
        lines.push((line, number));
        number += usize::from(counts(line));
    }
    lines
}

/// "and last a converted text over its table or 65,536 bytes is 31 at line 0".
fn fitted(text: Vec<u8>, table: usize, slip: Option<Slip>) -> Result<Vec<u8>, TextRefusal> {
    let table = table + usize::from(slip == Some(Slip::TableOneMore));
    let over = text.len() > LARGEST_TEXT && slip != Some(Slip::LongTextConverted);
    match text.len() > table || over {
        true => Err(TextRefusal { number: 31, line: 0 }),
        false => Ok(text),
    }
}

//! The form of one line of a QDIMACS text.

use super::QdimacsSlip as Slip;
use crate::formula::Quantifier;
use crate::layout;

/// A line in the form, before its numbers are judged. A negative literal is off; `-0` is 0.
pub enum Line {
    Comment,
    Header { variables: i32, clauses: i32 },
    Group(Quantifier, Vec<i32>),
    Clause(Vec<i32>),
}

/// The form, and what is slipped in it.
pub struct Form {
    pub slip: Option<Slip>,
}

impl Form {
    fn slips(&self, slip: Slip) -> bool {
        self.slip == Some(slip)
    }

    /// A line with its byte 10: "a line outside the form 1".
    pub fn line(&self, bytes: &[u8]) -> Option<Line> {
        let line = match bytes.strip_suffix(b"\n") {
            Some(line) => line,
            None if self.slips(Slip::UnendedLineRead) => bytes,
            None if self.slips(Slip::UnendedCommentSkipped) && bytes[0] == b'c' => bytes,
            None => return None,
        };
        let bare = line == b"c" || line.starts_with(b"c ");
        // "Lines that begin with c are skipped anywhere".
        match line.first() {
            Some(b'c') if bare || !self.slips(Slip::CommentNeedsSpace) => Some(Line::Comment),
            None if self.slips(Slip::EmptyLineSkipped) => Some(Line::Comment),
            _ => self.form(&self.items(line)?),
        }
    }

    /// "runs of spaces stand only between items": each item is followed by spaces and another one,
    /// or by the end of the line.
    fn items<'b>(&self, line: &'b [u8]) -> Option<Vec<&'b [u8]>> {
        let mut rest = match self.slip {
            Some(Slip::SpacesAtTheEnds) => line.trim_ascii(),
            Some(Slip::ReturnSkipped) => line.strip_suffix(b"\r").unwrap_or(line),
            _ => line,
        };
        let is_space = |byte: u8| byte == b' ' || byte == b'\t' && self.slips(Slip::TabIsSpace);
        let mut items = vec![];
        loop {
            let length = rest.iter().take_while(|&&byte| !is_space(byte)).count();
            let (item, after) = rest.split_at(length);
            if item.is_empty() {
                return None;
            }
            items.push(item);
            if after.is_empty() {
                return Some(items);
            }
            let spaces = after.iter().take_while(|&&byte| is_space(byte)).count();
            if spaces > 1 && self.slips(Slip::RunsRefused) {
                return None;
            }
            rest = &after[spaces..];
        }
    }

    fn form(&self, items: &[&[u8]]) -> Option<Line> {
        match items {
            [b"p", b"cnf", variables, clauses] => Some(Line::Header {
                variables: self.count(variables)?,
                clauses: self.count(clauses)?,
            }),
            [b"e", numbers @ ..] => self.group(Quantifier::Exists, numbers),
            [b"a", numbers @ ..] => self.group(Quantifier::Forall, numbers),
            _ => Some(Line::Clause(self.literals(items)?)),
        }
    }

    fn count(&self, digits: &[u8]) -> Option<i32> {
        match self.slips(Slip::LeadingZeros) {
            true => std::str::from_utf8(digits).ok()?.parse().ok(),
            false => layout::number(digits),
        }
    }

    /// A quantifier line has a number, and none under a minus.
    fn group(&self, quantifier: Quantifier, items: &[&[u8]]) -> Option<Line> {
        let signed = items.iter().any(|item| item.starts_with(b"-"));
        let mut numbers = self.literals(items)?;
        if numbers.is_empty() && !self.slips(Slip::EmptyGroup)
            || signed && !self.slips(Slip::SignInGroup)
        {
            return None;
        }
        numbers.iter_mut().for_each(|number| *number = number.abs());
        if self.slips(Slip::GroupByNumber) {
            numbers.sort();
        }
        let exchanged = match quantifier {
            Quantifier::Exists => Quantifier::Forall,
            _ => Quantifier::Exists,
        };
        let kind = if self.slips(Slip::KindsExchanged) { exchanged } else { quantifier };
        Some(Line::Group(kind, numbers))
    }

    /// "The number 0 indicates the end of a line", and is nothing else.
    fn literals(&self, items: &[&[u8]]) -> Option<Vec<i32>> {
        let (last, others) = items.split_last()?;
        let ends = *last == b"0" || *last == b"-0" && self.slips(Slip::MinusZeroEnds);
        if !ends {
            return None;
        }
        let zeros = self.slips(Slip::ZeroInTheMiddle);
        let kept = others.iter().filter(|item| !zeros || **item != b"0");
        kept.map(|item| self.literal(item)).collect()
    }

    /// "off is a minus before our digits".
    fn literal(&self, item: &[u8]) -> Option<i32> {
        match item.strip_prefix(b"-") {
            Some(b"0") if self.slips(Slip::MinusZeroNoItem) => None,
            Some(digits) if self.slips(Slip::SignLost) => self.count(digits),
            Some(digits) => self.count(digits).map(|number| -number),
            None if item == b"0" => None,
            None => self.count(item),
        }
    }
}

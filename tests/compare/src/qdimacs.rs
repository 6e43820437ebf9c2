//! "Books that come as QDIMACS": paper 02, wish 1, written from the paper and the standard's
//! description of its text (appendix A of source 000) alone.

use crate::formula::{Formula, Quantifier, Variable};
use crate::limits::LimitSlip;
use crate::options::Options;
use crate::refusal;
use crate::text::{TextRefusal, LARGEST_TEXT};
use crate::write;

mod books;
mod line;
mod slip;

pub use books::{by_place, lines};
pub use slip::{QdimacsSlip, ALL};

use line::{Form, Line};
use QdimacsSlip as Slip;

/// "`p cnf V C`".
#[derive(Clone, Copy)]
struct Header {
    variables: i32,
    clauses: i32,
}

/// What the lines so far say.
struct Reader<'a> {
    options: &'a Options,
    slip: Option<Slip>,
    header: Option<Header>,
    /// The variables of the quantifier lines in their order.
    quantified: Vec<Variable>,
    /// From the first clause on the whole book.
    book: Option<Formula>,
}

/// Opens a QDIMACS text: the book that our own text would give, or the first fault with its line.
pub fn open(text: &[u8], options: &Options, slip: Option<Slip>) -> Result<Formula, TextRefusal> {
    if text.len() > LARGEST_TEXT + usize::from(slip == Some(Slip::OneByteMore)) {
        return Err(TextRefusal { number: 9, line: 0 });
    }
    let mut reader = Reader { options, slip, header: None, quantified: vec![], book: None };
    let form = Form { slip };
    let mut line = 1;
    for bytes in text.split_inclusive(|&byte| byte == b'\n') {
        let refused = |number| TextRefusal { number, line };
        let Some(read) = form.line(bytes) else { return Err(refused(1)) };
        let counts = !matches!(read, Line::Comment) || slip != Some(Slip::CommentNotCounted);
        reader.take(read).map_err(refused)?;
        line += usize::from(counts);
    }
    let back = usize::from(slip == Some(Slip::MiscountAtLastLine));
    reader.end().map_err(|number| TextRefusal { number, line: line - back })
}

impl Reader<'_> {
    fn slips(&self, slip: Slip) -> bool {
        self.slip == Some(slip)
    }

    fn take(&mut self, line: Line) -> Result<(), u8> {
        match line {
            Line::Comment => Ok(()),
            Line::Header { variables, clauses } => self.take_header(Header { variables, clauses }),
            Line::Group(quantifier, numbers) => self.take_group(quantifier, &numbers),
            Line::Clause(literals) => self.take_clause(&literals),
        }
    }

    /// "a header count above 40 is 3": the first of the two.
    fn take_header(&mut self, header: Header) -> Result<(), u8> {
        if self.header.is_some() && !self.slips(Slip::SecondHeader) {
            return Err(1);
        }
        let most = self.options.largest_number() + i32::from(self.slips(Slip::HeaderOneMore));
        let both = self.slips(Slip::ClausesJudged) && header.clauses > 255;
        if header.variables > most || both {
            return Err(3);
        }
        let many = header.variables as usize > refusal::most_flags(self.options);
        if many && self.options.slips_in_limits(LimitSlip::HeaderCountsFlags) {
            return Err(33);
        }
        self.header = Some(header);
        Ok(())
    }

    /// How far variables go.
    fn count_of(&self, header: Header) -> i32 {
        header.variables - i32::from(self.slips(Slip::CountOneLess))
    }

    /// Each number: 3, 5 above the header's count, 4.
    fn take_group(&mut self, quantifier: Quantifier, numbers: &[i32]) -> Result<(), u8> {
        let Some(header) = self.header else { return Err(1) };
        if self.book.is_some() && !self.slips(Slip::GroupAfterClause) {
            return Err(1);
        }
        for &number in numbers {
            let range = !(1..=self.options.largest_number()).contains(&number);
            let above = number > self.count_of(header) && !self.slips(Slip::GroupAboveCount);
            let declared = self.quantified.iter().any(|v| i32::from(v.number) == number);
            match (range, above, declared) {
                (_, true, _) if self.slips(Slip::AboveBeforeRange) => return Err(5),
                (true, ..) => return Err(3),
                (_, true, _) => return Err(5),
                (_, _, true) => return Err(4),
                _ => self.quantified.push(Variable { number: number as i16, quantifier }),
            }
        }
        Ok(())
    }

    /// "Variables up to the header's count that stand in no quantifier line become flags, in rising
    /// number", before the quantified ones.
    fn whole(&self, header: Header) -> Formula {
        let mut flags: Vec<Variable> = (1..=self.count_of(header) as i16)
            .filter(|&number| self.quantified.iter().all(|v| v.number != number))
            .map(|number| Variable { number, quantifier: Quantifier::Free })
            .collect();
        if self.slips(Slip::FlagsFalling) {
            flags.reverse();
        }
        let mut groups = self.quantified.clone();
        if self.slips(Slip::GroupsReversed) {
            groups.reverse();
        }
        Formula { prefix: [flags, groups].concat(), clauses: vec![] }
    }

    /// As a rule: 20, 7, then each 3, 5, 6. "a clause line of 0 alone 7".
    fn take_clause(&mut self, literals: &[i32]) -> Result<(), u8> {
        let Some(header) = self.header else { return Err(1) };
        let whole = self.whole(header);
        if whole.free_count() > refusal::most_flags(self.options)
            && self.options.slips_in_limits(LimitSlip::FlagsAtFirstClause)
        {
            return Err(33);
        }
        let alone = literals.is_empty() && self.slips(Slip::ZeroAloneNoLine);
        let book = self.book.get_or_insert(whole);
        if alone {
            return Err(1);
        }
        if let Some(number) = refusal::of_rule(book, literals, self.options) {
            return Err(number);
        }
        let narrow: Vec<i16> = literals.iter().map(|&literal| literal as i16).collect();
        book.add(&narrow);
        let surplus = book.clauses.len() as i32 > header.clauses;
        match surplus && self.slips(Slip::SurplusAtItsLine) {
            true => Err(30),
            false => Ok(()),
        }
    }

    /// "A clause count that differs from the header is 30, given at the end of the text, as a
    /// missing line is": a missing header is one. Wish 8: 33 is given there too, before 30.
    fn end(mut self) -> Result<Formula, u8> {
        let Some(header) = self.header else {
            return if self.slips(Slip::NoHeaderOpens) { Ok(Formula::default()) } else { Err(1) };
        };
        let whole = self.whole(header);
        let mut book = self.book.take().unwrap_or(whole);
        let many = book.free_count() > refusal::most_flags(self.options);
        if many && !self.options.slips_in_limits(LimitSlip::FlagsAfterCount) {
            return Err(33);
        }
        let found = book.clauses.len() as i32;
        let differs = match self.slip {
            Some(Slip::SurplusAccepted) => found < header.clauses,
            Some(Slip::LackAccepted) => found > header.clauses,
            _ => found != header.clauses,
        };
        if differs || many {
            return Err(if differs { 30 } else { 33 });
        }
        self.slip_flags(&mut book);
        Ok(book)
    }

    fn slip_flags(&self, book: &mut Formula) {
        let uses: Vec<i16> = book.clauses.concat().iter().map(|literal| literal.abs()).collect();
        let flags = book.free_count();
        let used = |v: &Variable| uses.iter().position(|&number| number == v.number);
        match self.slip {
            Some(Slip::FlagsByUse) => {
                book.prefix[..flags].sort_by_key(|v| used(v).unwrap_or(usize::MAX))
            }
            Some(Slip::FlagsLast) => book.prefix.rotate_left(flags),
            Some(Slip::UnusedFlagLeftOut) => {
                book.prefix.retain(|v| v.quantifier != Quantifier::Free || used(v).is_some())
            }
            _ => return,
        }
        for clause in std::mem::take(&mut book.clauses) {
            book.add(&clause);
        }
    }
}

/// What the program `qdimacs` prints for a text: the same book in our own text, or the refusal.
pub fn program(text: &[u8], options: &Options, slip: Option<Slip>) -> String {
    match open(text, options, slip) {
        Ok(book) => write::text(&book, options),
        Err(fault) => format!("(refused {} {})\n", fault.number, fault.line),
    }
}

//! Paper 02, wish 12: "Up to eight books, in places 1 to 8, share one daily total T of visits".

use crate::answer::{Answer, Call, Said, Subject};
use crate::formula::Formula;
use crate::options::Options;
use crate::solver::Solver;

pub mod program;
mod slip;

pub use slip::{DaySlip, ALL};

/// "in places 1 to 8".
pub const PLACES: usize = 8;

/// What has been used of a day's total.
#[derive(Clone, Debug, PartialEq, Eq)]
pub struct Accounts {
    pub total: u32,
    /// By place, from 0. On a state that no calls reach it may be any number of 32 bits.
    pub used: [u32; PLACES],
}

impl Accounts {
    /// "all visits used are then 0".
    pub fn new(total: u32) -> Accounts {
        Accounts { total, used: [0; PLACES] }
    }

    /// "Each place, with a book or not, has a floor of T divided by 8, rounded down."
    fn floor(&self, slip: Option<DaySlip>) -> u64 {
        match slip {
            Some(DaySlip::FloorRoundedUp) => u64::from(self.total).div_ceil(PLACES as u64),
            _ => u64::from(self.total) / PLACES as u64,
        }
    }

    /// What is "still owed" to a place's floor.
    fn owed(&self, place: usize, slip: Option<DaySlip>) -> u64 {
        self.floor(slip).saturating_sub(self.used[place].into())
    }

    fn all_used(&self) -> u64 {
        self.used.iter().map(|&used| u64::from(used)).sum()
    }

    /// "a state whose visits used and still owed together exceed T is 22".
    pub fn malformed(&self, slip: Option<DaySlip>) -> bool {
        let owed: u64 = (0..PLACES).map(|place| self.owed(place, slip)).sum();
        let owed = if slip == Some(DaySlip::OwedNotJudged) { 0 } else { owed };
        self.all_used() + owed > u64::from(self.total)
    }

    /// "A call may use what remains of its own floor, plus what is neither used nor still owed to any floor."
    pub fn left(&self, place: usize, slip: Option<DaySlip>) -> u32 {
        let others = (0..PLACES).filter(|other| *other != place);
        let owed: u64 = others.map(|other| self.owed(other, slip)).sum();
        let total = match slip {
            Some(DaySlip::RemainderLost) => self.total - self.total % PLACES as u32,
            _ => self.total,
        };
        let left = match slip {
            Some(DaySlip::OthersFloorUsed) => u64::from(total).saturating_sub(self.all_used()),
            Some(DaySlip::OwnFloorOnly) => self.owed(place, slip),
            _ => u64::from(total).saturating_sub(self.all_used() + owed),
        };
        left as u32
    }
}

/// A box with a day's books.
#[derive(Clone, Debug)]
pub struct Day {
    pub accounts: Accounts,
    /// By place, from 0.
    pub books: [Option<Solver>; PLACES],
    pub slip: Option<DaySlip>,
}

impl Day {
    pub fn new(total: u32) -> Day {
        Day { accounts: Accounts::new(total), books: Default::default(), slip: None }
    }

    /// "They are loaded together when a day starts".
    pub fn load(&mut self, place: usize, formula: Formula, options: Options) {
        self.books[place - 1] = Some(Solver::opened(formula, options));
    }

    /// The index of a place that has a book.
    pub fn place(&self, place: usize) -> Option<usize> {
        let index = place.checked_sub(1)?;
        self.books.get(index)?.is_some().then_some(index)
    }

    /// A call at a place. "a place without a book, or outside 1 to 8, is 38, before all else. Next, a state whose
    /// visits used and still owed together exceed T is 22."
    pub fn call(&mut self, place: usize, call: &Call, ceiling: u32) -> Answer {
        let slip = self.slip;
        let refused = |number| Answer {
            said: Said::Refused(number),
            table: vec![0; call.table()],
            visits: 0,
        };
        let malformed = self.accounts.malformed(slip);
        if malformed && slip == Some(DaySlip::NoBookAfter22) {
            return refused(22);
        }
        let Some(index) = self.place(place) else { return refused(38) };
        if malformed || self.other_malformed(index) {
            return refused(22);
        }
        let left = self.accounts.left(index, slip);
        if left == 0 && slip == Some(DaySlip::EveryCallNeedsShare) {
            return refused(37);
        }
        self.limited(index, call, ceiling, left)
    }

    /// "A walk stopped by the shared total returns 37 where its own ceiling is higher, otherwise 34".
    fn limited(&mut self, index: usize, call: &Call, ceiling: u32, left: u32) -> Answer {
        let slip = self.slip;
        let book = self.books[index].as_mut().expect("a place with a book");
        let before = book.state.store.clone();
        let mut answer = book.call_within(call, ceiling.min(left));
        let equal = slip == Some(DaySlip::EqualIs37) && ceiling == left;
        let shared = (ceiling > left || equal) && slip != Some(DaySlip::SharedIs34);
        if answer.said == Said::Refused(34) && shared {
            answer.said = Said::Refused(37);
            if slip == Some(DaySlip::StoreLostAfter37) {
                book.state.store = before;
            }
        }
        self.charge(index, &answer);
        answer
    }

    /// "refused calls' visits count".
    fn charge(&mut self, index: usize, answer: &Answer) {
        let refused = matches!(answer.said, Said::Refused(_));
        if refused && self.slip == Some(DaySlip::RefusedNotCounted) {
            return;
        }
        let index = if self.slip == Some(DaySlip::FirstPlaceCharged) { 0 } else { index };
        self.accounts.used[index] += answer.visits as u32;
    }

    /// Nothing, unless slipped: "Apart from that limit a book answers as if alone".
    fn other_malformed(&self, index: usize) -> bool {
        let others = self.books.iter().enumerate().filter(|(other, _)| *other != index);
        let malformed = |book: &Solver| crate::check::malformed(&book.state, &book.options);
        self.slip == Some(DaySlip::OtherBooksJudged)
            && others.filter_map(|(_, book)| book.as_ref()).any(malformed)
    }
}

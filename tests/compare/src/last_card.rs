//! The card answered last in a session, from which pages are printed: paper 02, wish 11, and the
//! words of the interface.

use crate::answer::{Answer, Call, Said};
use crate::page::{Card, PageSlip};

/// Mistakes that can be switched in.
#[derive(Clone, Copy, Debug, PartialEq, Eq)]
pub enum LastCardSlip {
    KeptAfterRule,
    KeptAfterWithdrawal,
    KeptAfterRefusedCard,
    KeptAfterKeepCard,
    KeptAfterRefusedKeepCard,
    KeptAfterStoppedCard,
    KeptAfterClosest,
    KeptAfterRefusedClosest,
    LostAfterClosest,
    KeptAfterOne,
    LostAfterRefusedOne,
    RefusedCardShown,
    LostAfterRefusedRule,
    LostAfterRefusedWithdrawal,
    LostAfterQuery,
    LostAfterStoppedQuery,
    LostAfterForget,
    LostAfterWrite,
    LostAfterPage,
    OnPage(PageSlip),
}

pub const ALL: &[(LastCardSlip, &str)] = &[
    (LastCardSlip::KeptAfterRule, "a page of a card that an accepted rule has made untrue"),
    (LastCardSlip::KeptAfterWithdrawal, "a page of a card that a withdrawal has made untrue"),
    (LastCardSlip::KeptAfterKeepCard, "a page of the card before the keep card"),
    (LastCardSlip::KeptAfterRefusedKeepCard, "a page of the card before the refused keep card"),
    (LastCardSlip::KeptAfterStoppedCard, "a page of the card before the stopped one"),
    (LastCardSlip::KeptAfterClosest, "a page of the card before the closest reading's"),
    (
        LastCardSlip::KeptAfterRefusedClosest,
        "a page of the card before the refused closest reading",
    ),
    (LastCardSlip::LostAfterClosest, "the card of a closest reading has no page"),
    (LastCardSlip::KeptAfterOne, "a page of a card that an exactly-one form has made untrue"),
    (LastCardSlip::LostAfterRefusedOne, "a refused exactly-one form takes the card away"),
    (LastCardSlip::LostAfterStoppedQuery, "a stopped query takes the card away"),
    (LastCardSlip::LostAfterRefusedWithdrawal, "a refused withdrawal takes the card away"),
    (LastCardSlip::KeptAfterRefusedCard, "a page of the card before the refused one"),
    (LastCardSlip::RefusedCardShown, "a refused card is shown as one without lines"),
    (LastCardSlip::LostAfterRefusedRule, "a refused rule takes the card away"),
    (LastCardSlip::LostAfterQuery, "a query takes the card away"),
    (LastCardSlip::LostAfterForget, "forget takes the card away"),
    (LastCardSlip::LostAfterWrite, "writing the book takes the card away"),
    (LastCardSlip::LostAfterPage, "a page takes the card away"),
    (LastCardSlip::OnPage(PageSlip::NumberByPage), "lines are counted anew on each page"),
    (LastCardSlip::OnPage(PageSlip::PagesFromZero), "the first page is page 0"),
    (
        LastCardSlip::OnPage(PageSlip::EmptyPageAtEnd),
        "a full last page is followed by an empty one",
    ),
];

struct Held {
    table: Vec<u8>,
    lines: usize,
}

/// "page K of the card .. answered last", where it still holds.
pub struct LastCard {
    held: Option<Held>,
    flags: usize,
    slip: Option<LastCardSlip>,
}

impl LastCard {
    /// "no card has been answered yet".
    pub fn none(flags: usize, slip: Option<LastCardSlip>) -> LastCard {
        LastCard { held: None, flags, slip }
    }

    /// What a call and its answer make of it: "the last one was refused, or a rule .. was accepted or a
    /// rule withdrawn since".
    pub fn after(&mut self, call: &Call, answer: &Answer) {
        use LastCardSlip::*;
        let slips = |slip| self.slip == Some(slip);
        let stays = match (call, answer.said) {
            (Call::KeepCard(_), Said::Lines(_)) if slips(KeptAfterKeepCard) => true,
            (Call::KeepCard(_), Said::Refused(_)) if slips(KeptAfterRefusedKeepCard) => true,
            (Call::Card(_) | Call::KeepCard(_), Said::Refused(34))
                if slips(KeptAfterStoppedCard) =>
            {
                true
            }
            (Call::Query(_), Said::Refused(34)) if slips(LostAfterStoppedQuery) => false,
            (Call::Closest(..), Said::Closest(_)) if slips(KeptAfterClosest) => true,
            (Call::Closest(..), Said::Closest(_)) if slips(LostAfterClosest) => false,
            (Call::Closest(..), Said::Closest(found)) => {
                self.held = Some(Held { table: answer.table.clone(), lines: found.lines });
                return;
            }
            (Call::Closest(..), _) => slips(KeptAfterRefusedClosest),
            (Call::One(_), Said::Added) => slips(KeptAfterOne),
            (Call::One(_), _) => !slips(LostAfterRefusedOne),
            (Call::Card(_) | Call::KeepCard(_), Said::Lines(lines)) => {
                self.held = Some(Held { table: answer.table.clone(), lines });
                return;
            }
            (Call::Card(_) | Call::KeepCard(_), _) if slips(RefusedCardShown) => {
                self.held = Some(Held { table: answer.table.clone(), lines: 0 });
                return;
            }
            (Call::Card(_) | Call::KeepCard(_), _) => slips(KeptAfterRefusedCard),
            (Call::Rule(_), Said::Added) => slips(KeptAfterRule),
            (Call::Rule(_), _) => !slips(LostAfterRefusedRule),
            (Call::Withdraw, Said::Withdrawn) => slips(KeptAfterWithdrawal),
            (Call::Withdraw, _) => !slips(LostAfterRefusedWithdrawal),
            (Call::Query(_), _) => !slips(LostAfterQuery),
            (Call::Forget, _) => !slips(LostAfterForget),
            (Call::Write(_), _) => !slips(LostAfterWrite),
        };
        if !stays {
            self.held = None;
        }
    }

    /// The rows of a page, or 36.
    pub fn page(&mut self, number: usize) -> Result<Vec<u8>, u8> {
        let slip = match self.slip {
            Some(LastCardSlip::OnPage(slip)) => Some(slip),
            _ => None,
        };
        let Held { table, lines } = self.held.as_ref().ok_or(36)?;
        let page = Card { table, lines: *lines, flags: self.flags }.page(number, slip);
        if self.slip == Some(LastCardSlip::LostAfterPage) {
            self.held = None;
        }
        page
    }
}

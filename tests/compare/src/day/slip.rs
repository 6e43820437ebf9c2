//! Mistakes in a day of eight books that can be switched in.

#[derive(Clone, Copy, Debug, PartialEq, Eq)]
pub enum DaySlip {
    // What a call may use.
    FloorRoundedUp,
    RemainderLost,
    OthersFloorUsed,
    OwnFloorOnly,
    EveryCallNeedsShare,
    // What is charged.
    RefusedNotCounted,
    FirstPlaceCharged,
    // Refusals.
    EqualIs37,
    SharedIs34,
    StoreLostAfter37,
    NoBookAfter22,
    OwedNotJudged,
    OtherBooksJudged,
    // The program.
    PlaceGivenAgain,
    LimitsLost,
    TextNotSkipped,
    LinesOfTheText,
    CardOfAnotherPlace,
}

use DaySlip::*;

pub const ALL: &[(DaySlip, &str)] = &[
    (FloorRoundedUp, "a floor is rounded up"),
    (RemainderLost, "what T leaves when divided by 8 is lost"),
    (OthersFloorUsed, "a call uses what is owed to another place's floor"),
    (OwnFloorOnly, "a call uses no more than its own floor"),
    (EveryCallNeedsShare, "37 for a call without visits where nothing is left"),
    (RefusedNotCounted, "visits of refused calls do not count"),
    (FirstPlaceCharged, "all visits are charged to the first place"),
    (EqualIs37, "37 where the own ceiling is equal to what is left"),
    (SharedIs34, "34 where the shared total stops a walk"),
    (StoreLostAfter37, "what a walk stored before 37 is thrown away"),
    (NoBookAfter22, "38 after the accounts' 22"),
    (OwedNotJudged, "22 looks at the visits used alone"),
    (OtherBooksJudged, "another book's malformed state is 22"),
    (PlaceGivenAgain, "a place given again is loaded again"),
    (LimitsLost, "the limits of a place line are not used"),
    (TextNotSkipped, "the text behind a refused place line is not skipped"),
    (LinesOfTheText, "a call's line is counted from the end of the loading"),
    (CardOfAnotherPlace, "a page shows the last card of any place"),
];

impl DaySlip {
    /// Whether no input of the program can show it: its accounts and its books are never malformed, and once a book
    /// is stopped by the shared total it makes no more visits that day.
    pub fn is_of_states(self) -> bool {
        matches!(self, NoBookAfter22 | OwedNotJudged | OtherBooksJudged | StoreLostAfter37)
    }
}

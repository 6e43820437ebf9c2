//! Slips: mistakes of one line each that can be switched into the implementation.

use crate::check::Check;

#[derive(Clone, Copy, Debug, PartialEq, Eq)]
pub enum Slip {
    // The store between calls.
    CubesKeptAfterRule,
    ClausesDroppedAfterRule,
    RefusedRuleDropsCubes,
    ForgetKeepsStore,
    ForgetKeepsClauses,
    ForgetKeepsCubes,
    StoreLostAfter21,
    LearnsNothing,
    // Withdrawals and the records of learned clauses.
    WithdrawalDropsCubes,
    WithdrawalKeepsClauses,
    WithdrawalDropsClauses,
    EqualRecordDropped,
    CutAtFirstLarger,
    CutFromYoungEnd,
    NewestFillsGap,
    RecordsCutNotFiltered,
    RecordsNotMoved,
    RecordOfDisplacedTaken,
    RecordOfYoungestRule,
    RecordOneLess,
    RuleRaisesRecords,
    SearchRenewsRecords,
    SearchLosesRecords,
    OldestRuleWithdrawn,
    OpenedRulesStay,
    NothingWithdrawn,
    RefusedWithdrawalEmptiesStore,
    EqualRecordRefused,
    // The store within a search.
    NewestDisplaced,
    FullStoreLearnsNothing,
    CapacityOneLess,
    CapacityOneMore,
    EqualNotStoredAgain,
    DisplacementChangesEntryGoingUp,
    // Steps 1 to 4.
    OpenForallIsHope,
    OpenFreeIsNoHope,
    UnreducedPlacesCompared,
    LaterOfEqualDead,
    FirstDeadClause,
    StartTestsExactOnly,
    InnerTestsAtMost,
    NewestClauseFirst,
    NewestCubeFirst,
    CubeTakesLargestPlace,
    SatisfiedBeforeStoredClause,
    LeafNotCounted,
    // Step 5.
    OnBeforeOff,
    FreeVisitsBoth,
    QuantifiedVisitsBoth,
    FreeOnSideJoined,
    QuantifiedOnSideJoined,
    FreeDroppedInReducing,
    JoinNotReduced,
    OrderedByNumber,
    // Lines and the card table.
    YesHalvesTwoLines,
    RunningCount,
    TableTailKept,
    TableKeptAfter21,
    NoVisitsAt21,
    TableRoundedUp,
    EmptyLineNeedsByte,
    YesLineBytesLeft,
    // Lines of the keep card.
    NoHalvesTwoLines,
    MixedIsNo,
    NoLineBytesLeft,
    NoLinesBelowFlags,
    KeepCardOfYes,
    KeepCardStartsEmpty,
    KeepCardLearnsNothing,
    FlaglessKeepCardHasNoLine,
    // Queries with open flags.
    OpenIsOff,
    OpenQueryStartsBelow,
    RecordedNodeNotVisited,
    RecordedSidesBoth,
    OpenQueryReadsStore,
    OpenQueryLearns,
    UnsettledIsKeep,
    UnsettledIsSwap,
    BothListsTaken,
    FullReadingWalksPlain,
    // Exactly-one forms.
    OnePairsBySecond,
    OneCountsOne,
    OneHalfAdded,
    OneFullBeforeLength,
    OneAlone,
    OneSideNegated,
    OneWithoutWhole,
    OneKeepsCubes,
    WithdrawalTakesForm,
    // The closest reading.
    ClosestCountsOpen,
    ClosestLastOfEquals,
    ClosestOpenOfLineIsOff,
    ClosestOpenIsOff,
    StoreLostAfter35,
    NoVisitsAt35,
    NoLineBefore21,
    // Refusals and accepted rules.
    LengthBeforeFull,
    UndeclaredBeforeRange,
    RepeatBeforeUndeclared,
    FaultByFault,
    RangeBeforeLength,
    ClauseLimitOneLess,
    LiteralLimitOneLess,
    LiteralLimitOneMore,
    NumberLimitOneLess,
    QueryTakesNonFree,
    QueryTakesRepeat,
    WrittenOrderKept,
    EqualClauseNotAdded,
    StateJudgedLast,
    // A book written back.
    GroupsNotMerged,
    EmptyFlagsLeftOut,
    WrittenByNumber,
    RulesNewestFirst,
    SignLost,
    TextTailKept,
    TableKeptAfter31,
    ExactTableRefused,
    TableOneByteShort,
    /// A part of the state check left out.
    CheckOmits(Check),
}

/// Every slip with the sentence that says what it does wrong.
pub const ALL: &[(Slip, &str)] = &[
    (Slip::CubesKeptAfterRule, "cubes kept after an accepted rule"),
    (Slip::ClausesDroppedAfterRule, "learned clauses dropped after an accepted rule"),
    (Slip::RefusedRuleDropsCubes, "a refused rule drops the cubes"),
    (Slip::ForgetKeepsStore, "forget keeps the store"),
    (Slip::ForgetKeepsClauses, "forget keeps the learned clauses"),
    (Slip::ForgetKeepsCubes, "forget keeps the cubes"),
    (Slip::StoreLostAfter21, "the store is thrown away after 21"),
    (Slip::LearnsNothing, "nothing is ever stored"),
    (Slip::WithdrawalDropsCubes, "a withdrawal drops the cubes"),
    (Slip::WithdrawalKeepsClauses, "a withdrawal keeps every learned clause"),
    (Slip::WithdrawalDropsClauses, "a withdrawal drops every learned clause"),
    (
        Slip::EqualRecordDropped,
        "a learned clause with a record equal to the rules that remain dropped",
    ),
    (Slip::CutAtFirstLarger, "everything younger than the first larger record dropped"),
    (Slip::CutFromYoungEnd, "larger records dropped at the young end only"),
    (Slip::NewestFillsGap, "the newest learned clause fills the gap of a dropped one"),
    (
        Slip::RecordsCutNotFiltered,
        "a withdrawal drops clauses anywhere but records at the young end",
    ),
    (Slip::RecordsNotMoved, "displacement moves the learned clauses but not their records"),
    (Slip::RecordOfDisplacedTaken, "a learned clause takes the record of the displaced one"),
    (Slip::RecordOfYoungestRule, "the record is that of the youngest rule that a clause rests on"),
    (Slip::RecordOneLess, "the record is one less than the rules standing"),
    (Slip::RuleRaisesRecords, "an accepted rule raises the records to the rules standing"),
    (Slip::SearchRenewsRecords, "a search writes all records back as the rules standing"),
    (Slip::SearchLosesRecords, "a search writes all records back as 0"),
    (Slip::OldestRuleWithdrawn, "the oldest rule withdrawn instead of the newest"),
    (Slip::OpenedRulesStay, "32 for a rule of the opened book"),
    (Slip::NothingWithdrawn, "a book without rules answers that one is withdrawn"),
    (Slip::RefusedWithdrawalEmptiesStore, "32 empties the store"),
    (Slip::EqualRecordRefused, "22 for a record equal to the rules standing"),
    (Slip::NewestDisplaced, "a full store drops its newest entry instead of the oldest"),
    (Slip::FullStoreLearnsNothing, "a full store takes no entry"),
    (Slip::CapacityOneLess, "the store holds one entry less"),
    (Slip::CapacityOneMore, "the store holds one entry more"),
    (Slip::EqualNotStoredAgain, "an equal entry is not stored again"),
    (Slip::DisplacementChangesEntryGoingUp, "displacement changes the off side's entry going up"),
    (Slip::OpenForallIsHope, "an open forall literal keeps a clause alive"),
    (Slip::OpenFreeIsNoHope, "an open free literal does not keep a clause alive"),
    (Slip::UnreducedPlacesCompared, "dead clauses compared by their last places unreduced"),
    (Slip::LaterOfEqualDead, "the later of dead clauses with one last place"),
    (Slip::FirstDeadClause, "the first dead clause instead of the lowest"),
    (Slip::StartTestsExactOnly, "a start node tests only entries that end exactly there"),
    (Slip::InnerTestsAtMost, "inner nodes test entries that end at or before them"),
    (Slip::NewestClauseFirst, "the newest eligible learned clause first"),
    (Slip::NewestCubeFirst, "the newest eligible cube first"),
    (Slip::CubeTakesLargestPlace, "the cube takes each clause's true literal of largest place"),
    (Slip::SatisfiedBeforeStoredClause, "steps 2 and 3 exchanged"),
    (Slip::LeafNotCounted, "a visit that decides its node is not counted"),
    (Slip::OnBeforeOff, "on before off"),
    (Slip::FreeVisitsBoth, "a free node always visits both sides"),
    (Slip::QuantifiedVisitsBoth, "a quantified node visits on though off's entry lacks v"),
    (Slip::FreeOnSideJoined, "free node: the on side's entry that lacks v is joined"),
    (Slip::QuantifiedOnSideJoined, "quantified node: the on side's entry that lacks v is joined"),
    (Slip::FreeDroppedInReducing, "a last free literal is dropped in reducing"),
    (Slip::JoinNotReduced, "a join is stored and sent up unreduced"),
    (Slip::OrderedByNumber, "entries ordered by number instead of place"),
    (Slip::YesHalvesTwoLines, "two Yes halves printed as two lines"),
    (Slip::RunningCount, "21 judged on the running count of lines"),
    (Slip::TableTailKept, "bytes after the last line not zeroed"),
    (Slip::TableKeptAfter21, "the table is not zeroed by 21"),
    (Slip::NoVisitsAt21, "21 reports no visits"),
    (Slip::TableRoundedUp, "the table's capacity rounded up"),
    (Slip::EmptyLineNeedsByte, "with no free variable a line needs a byte"),
    (Slip::YesLineBytesLeft, "bytes of a card's line that was taken back left in the table"),
    (Slip::NoHalvesTwoLines, "two No halves left as two lines"),
    (Slip::MixedIsNo, "Mixed counted as No"),
    (Slip::NoLineBytesLeft, "bytes of a keep card's line that was taken back left in the table"),
    (Slip::NoLinesBelowFlags, "No nodes below the flags are lines of the keep card"),
    (Slip::KeepCardOfYes, "a keep card has the card's lines"),
    (Slip::KeepCardStartsEmpty, "a keep card searches without the store"),
    (Slip::KeepCardLearnsNothing, "what a keep card learns is thrown away"),
    (Slip::FlaglessKeepCardHasNoLine, "with no free variable a keep card has no line"),
    (Slip::OpenIsOff, "a flag that a query does not name is off"),
    (Slip::OpenQueryStartsBelow, "an open query starts at the node of its first flags"),
    (Slip::RecordedNodeNotVisited, "a node of a recorded flag is passed without a visit"),
    (Slip::RecordedSidesBoth, "both sides of a recorded flag are visited"),
    (Slip::OpenQueryReadsStore, "an open query uses what is stored"),
    (Slip::OpenQueryLearns, "an open query adds to the store"),
    (Slip::UnsettledIsKeep, "keep where some completion is a swap"),
    (Slip::UnsettledIsSwap, "swap where some completion is one"),
    (Slip::BothListsTaken, "a number given as on and as off is taken as on"),
    (Slip::FullReadingWalksPlain, "a full reading goes as the plain walk from the empty node"),
    (Slip::OnePairsBySecond, "the pairs of an exactly-one form by their second literal"),
    (
        Slip::OneCountsOne,
        "20 judged on one rule of an exactly-one form, and those that fit are added",
    ),
    (Slip::OneHalfAdded, "20 for an exactly-one form, and those of its rules that fit are added"),
    (Slip::OneFullBeforeLength, "7 after 20 for an exactly-one form"),
    (Slip::OneAlone, "exactly one of one literal accepted"),
    (Slip::OneSideNegated, "the first literal of a pair negated only"),
    (Slip::OneWithoutWhole, "an exactly-one form without the rule of all its literals"),
    (Slip::OneKeepsCubes, "an accepted exactly-one form keeps the cubes"),
    (Slip::WithdrawalTakesForm, "a withdrawal takes a whole exactly-one form back"),
    (Slip::ClosestCountsOpen, "the closest reading's number counts the open flags of its line"),
    (Slip::ClosestLastOfEquals, "the last of equally close readings"),
    (Slip::ClosestOpenOfLineIsOff, "the closest reading is off where its line is open"),
    (Slip::ClosestOpenIsOff, "a flag left open is taken as off by the closest reading"),
    (Slip::StoreLostAfter35, "what the search of 35 stored is thrown away"),
    (Slip::NoVisitsAt35, "35 reports no visits"),
    (Slip::NoLineBefore21, "35 for a table that holds no line, before 21"),
    (Slip::LengthBeforeFull, "7 judged before 20"),
    (Slip::UndeclaredBeforeRange, "5 judged before 3"),
    (Slip::RepeatBeforeUndeclared, "6 judged on the whole rule before 5"),
    (Slip::FaultByFault, "3, 5, 6 judged fault by fault instead of number by number"),
    (Slip::RangeBeforeLength, "3 judged before 7"),
    (Slip::ClauseLimitOneLess, "255 clauses become 254"),
    (Slip::LiteralLimitOneLess, "16 literals become 15"),
    (Slip::LiteralLimitOneMore, "16 literals become 17"),
    (Slip::NumberLimitOneLess, "number 40 becomes 39"),
    (Slip::QueryTakesNonFree, "a query accepts a number that is no flag"),
    (Slip::QueryTakesRepeat, "a query accepts a flag twice"),
    (Slip::WrittenOrderKept, "an added rule keeps the written order"),
    (Slip::EqualClauseNotAdded, "a rule that stands already is not added again"),
    (Slip::StateJudgedLast, "22 judged after the input's refusals"),
    (Slip::GroupsNotMerged, "a book is written with a group line for each quantified variable"),
    (Slip::EmptyFlagsLeftOut, "a book without flags is written without its line (flags)"),
    (Slip::WrittenByNumber, "literals written by number instead of place"),
    (Slip::RulesNewestFirst, "rules written from the newest to the oldest"),
    (Slip::SignLost, "a literal that is off written as on"),
    (Slip::TextTailKept, "bytes after the text not zeroed"),
    (Slip::TableKeptAfter31, "the table is not zeroed by 31"),
    (Slip::ExactTableRefused, "31 for a table that the text fills"),
    (Slip::TableOneByteShort, "a table one byte too short is taken, and the text cut"),
    (Slip::CheckOmits(Check::DeclarationRange), "22 misses a declared number out of range"),
    (Slip::CheckOmits(Check::DeclaredTwice), "22 misses a number declared twice"),
    (Slip::CheckOmits(Check::FreeAfterQuantified), "22 misses a flag after a quantifier block"),
    (Slip::CheckOmits(Check::ClauseCount), "22 misses too many clauses"),
    (Slip::CheckOmits(Check::ClauseEmpty), "22 misses an empty clause"),
    (Slip::CheckOmits(Check::ClauseTooLong), "22 misses a clause of too many literals"),
    (Slip::CheckOmits(Check::ClauseUndeclared), "22 misses an undeclared variable in a clause"),
    (Slip::CheckOmits(Check::ClauseRepeats), "22 misses a variable twice in a clause"),
    (Slip::CheckOmits(Check::ClauseOrder), "22 misses a clause out of place order"),
    (Slip::CheckOmits(Check::EntryCount), "22 misses too many entries"),
    (Slip::CheckOmits(Check::EntryUndeclared), "22 misses an undeclared variable in an entry"),
    (Slip::CheckOmits(Check::EntryRepeats), "22 misses a variable twice in an entry"),
    (Slip::CheckOmits(Check::EntryOrder), "22 misses an entry out of place order"),
    (Slip::CheckOmits(Check::EntryUnreduced), "22 misses an unreduced entry"),
    (Slip::CheckOmits(Check::RecordTooHigh), "22 misses a record above the rules standing"),
];

impl Slip {
    /// Whether only a malformed state can show the slip.
    pub fn is_of_check(self) -> bool {
        matches!(self, Slip::CheckOmits(_) | Slip::StateJudgedLast)
    }

    /// Whether a slipped solver judges its states: only then does the slip show.
    pub fn judges_state(self) -> bool {
        self.is_of_check() || self == Slip::EqualRecordRefused
    }

    /// Whether calls on an opened formula cannot show the slip: entries learned by calls are sound, and a
    /// sound entry is met at its own last place and never learned while it is stored; and their records
    /// never fall from old to young; and where no rule stands a search makes one visit whatever is stored.
    pub fn needs_given_store(self) -> bool {
        matches!(
            self,
            Slip::InnerTestsAtMost
                | Slip::SatisfiedBeforeStoredClause
                | Slip::EqualNotStoredAgain
                | Slip::CutAtFirstLarger
                | Slip::CutFromYoungEnd
                | Slip::NewestFillsGap
                | Slip::RecordsCutNotFiltered
                | Slip::RefusedWithdrawalEmptiesStore
        )
    }

    /// Whether no text and no session can show the slip: calls on an opened formula meet neither a malformed state nor
    /// an entry that a sound search does not store, print no table, and meet dead clauses that end at different places
    /// only where nobody learns from them.
    pub fn is_unprinted(self) -> bool {
        use Slip::*;
        let table = [
            TableTailKept,
            TableKeptAfter21,
            TextTailKept,
            TableKeptAfter31,
            YesLineBytesLeft,
            NoLineBytesLeft,
        ];
        let of_state = self.is_of_check() || self.needs_given_store();
        of_state || table.contains(&self) || self.is_hidden()
    }

    /// Whether the slip is one of the finder of dead clauses, which can be asked alone.
    pub fn is_of_finder(self) -> bool {
        use Slip::{FirstDeadClause, LaterOfEqualDead, UnreducedPlacesCompared};
        matches!(self, UnreducedPlacesCompared | LaterOfEqualDead | FirstDeadClause)
    }

    /// Whether no call shows the slip: the dead clauses that a search meets end at one place, and a
    /// start node's clause goes nowhere.
    pub fn is_hidden(self) -> bool {
        self == Slip::FirstDeadClause
    }

    /// Whether only a list with a withdrawal, or a state with a record that is not 0, can show the slip.
    pub fn is_of_withdrawal(self) -> bool {
        matches!(
            self,
            Slip::WithdrawalDropsCubes
                | Slip::WithdrawalKeepsClauses
                | Slip::WithdrawalDropsClauses
                | Slip::EqualRecordDropped
                | Slip::CutAtFirstLarger
                | Slip::CutFromYoungEnd
                | Slip::NewestFillsGap
                | Slip::RecordsCutNotFiltered
                | Slip::RecordsNotMoved
                | Slip::RecordOfDisplacedTaken
                | Slip::RecordOfYoungestRule
                | Slip::RecordOneLess
                | Slip::RuleRaisesRecords
                | Slip::SearchRenewsRecords
                | Slip::SearchLosesRecords
                | Slip::OldestRuleWithdrawn
                | Slip::OpenedRulesStay
                | Slip::NothingWithdrawn
                | Slip::RefusedWithdrawalEmptiesStore
                | Slip::EqualRecordRefused
                | Slip::WithdrawalTakesForm
                | Slip::CheckOmits(Check::RecordTooHigh)
        )
    }

    /// Whether only a keep card can show the slip.
    pub fn is_of_keep_card(self) -> bool {
        matches!(
            self,
            Slip::NoHalvesTwoLines
                | Slip::MixedIsNo
                | Slip::NoLineBytesLeft
                | Slip::NoLinesBelowFlags
                | Slip::KeepCardOfYes
                | Slip::KeepCardStartsEmpty
                | Slip::KeepCardLearnsNothing
                | Slip::FlaglessKeepCardHasNoLine
        )
    }

    /// Whether only a query with an open flag, or one whose flags stand in both lists, can show the slip.
    pub fn is_of_open_query(self) -> bool {
        matches!(
            self,
            Slip::OpenIsOff
                | Slip::OpenQueryStartsBelow
                | Slip::RecordedNodeNotVisited
                | Slip::RecordedSidesBoth
                | Slip::OpenQueryReadsStore
                | Slip::OpenQueryLearns
                | Slip::UnsettledIsKeep
                | Slip::UnsettledIsSwap
                | Slip::BothListsTaken
        )
    }

    /// Whether only an exactly-one form can show the slip.
    pub fn is_of_one(self) -> bool {
        matches!(
            self,
            Slip::OnePairsBySecond
                | Slip::OneCountsOne
                | Slip::OneHalfAdded
                | Slip::OneFullBeforeLength
                | Slip::OneAlone
                | Slip::OneSideNegated
                | Slip::OneWithoutWhole
                | Slip::OneKeepsCubes
                | Slip::WithdrawalTakesForm
        )
    }

    /// Whether only a closest reading can show the slip.
    pub fn is_of_closest(self) -> bool {
        matches!(
            self,
            Slip::ClosestCountsOpen
                | Slip::ClosestLastOfEquals
                | Slip::ClosestOpenOfLineIsOff
                | Slip::ClosestOpenIsOff
                | Slip::StoreLostAfter35
                | Slip::NoVisitsAt35
                | Slip::NoLineBefore21
        )
    }

    /// Whether only a book written back can show the slip.
    pub fn is_of_writing(self) -> bool {
        matches!(
            self,
            Slip::GroupsNotMerged
                | Slip::EmptyFlagsLeftOut
                | Slip::WrittenByNumber
                | Slip::RulesNewestFirst
                | Slip::SignLost
                | Slip::TextTailKept
                | Slip::TableKeptAfter31
                | Slip::ExactTableRefused
                | Slip::TableOneByteShort
        )
    }
}

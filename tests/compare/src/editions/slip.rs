//! Mistakes in reading and converting editions that can be switched in.

#[derive(Clone, Copy, Debug, PartialEq, Eq)]
pub enum EditionSlip {
    // Editions and tags.
    SecondForFirst,
    UntaggedRead,
    TaggedInFirst,
    TagOneMore,
    RangeBeforeFull,
    RangeAfterLength,
    // Exactly one.
    OneAlone,
    FullBeforeLength,
    RuleByRule,
    PairsBySecond,
    OneSideNegated,
    GroupAfterOne,
    // Conversions.
    OneCounted,
    LostBeforeFault,
    TagTwice,
    DigitDropped,
    TableOneMore,
    LongTextConverted,
}

use EditionSlip::*;

pub const ALL: &[(EditionSlip, &str)] = &[
    (SecondForFirst, "a reader of edition 1 reads edition 2"),
    (UntaggedRead, "a rule without a tag is read in edition 2"),
    (TaggedInFirst, "a rule with a tag is read in edition 1"),
    (TagOneMore, "the tag 65,536 is taken"),
    (RangeBeforeFull, "39 before 20"),
    (RangeAfterLength, "39 after 7"),
    (OneAlone, "exactly one of one literal is taken"),
    (FullBeforeLength, "20 before 7 in an exactly-one form"),
    (RuleByRule, "20 counted rule by rule"),
    (PairsBySecond, "pairs in the order of their second literal"),
    (OneSideNegated, "one literal of a pair negated"),
    (GroupAfterOne, "a group after an exactly-one form"),
    (OneCounted, "exactly-one forms counted among the rule forms"),
    (LostBeforeFault, "40 before a later fault"),
    (TagTwice, "a tag copied twice"),
    (DigitDropped, "a digit of a tag dropped"),
    (TableOneMore, "a table one byte too short is filled"),
    (LongTextConverted, "a text that would have over 65,536 bytes is converted"),
];

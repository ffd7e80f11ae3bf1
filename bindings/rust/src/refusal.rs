//! Why a call was refused.
use crate::sys::{Number, REFUSED};
use std::fmt;

/// The causes of refusal, by their numbers. `Display` says what is wrong and what to do.
#[derive(Clone, Copy, Debug, PartialEq, Eq, Hash)]
#[non_exhaustive]
pub enum Refusal {
    /// 1: some length is wrong for its layout.
    Length,
    /// 2: more positions or nodes than a record can have, more leaves than a joined tree, or more rays than a report.
    TooMany,
    /// 3: the leaf limit exceeds 3, or the order is neither 0 nor 1.
    Limit,
    /// 4: too little room was lent.
    Room,
    /// 5: a link of no known kind, or one that leads out of the tree or the list.
    Link,
    /// 6: a box that is not finite, past the bounds, or with its ends swapped.
    Box,
    /// 7: the links make no tree, or one too deep.
    Structure,
    /// 8: some node of the record would lie deeper than level 31.
    Level,
    /// 9: a ray that is not finite or past the bounds.
    Ray,
    /// 10: a damaged record, an index past the panes, or a forged walker.
    Record,
    /// 11: more positions than the list has room for, with the length needed.
    List {
        /// How many positions there are.
        needed: u32,
    },
    /// 12: losses that are not one for each pane, or one that is too great.
    Losses,
    /// 13: an index word of a joined tree that 32 bits don't hold.
    IndexSum,
    /// 14: spans, a side table or quarter hours that do not fit.
    Spans,
    /// A number that this version of the bindings has no name for.
    Other(u32),
}

impl Refusal {
    /// The refusal of a number; 11 has its length beside it and is made by any-hit alone.
    pub fn from_number(number: u32) -> Refusal {
        match number {
            1 => Refusal::Length,
            2 => Refusal::TooMany,
            3 => Refusal::Limit,
            4 => Refusal::Room,
            5 => Refusal::Link,
            6 => Refusal::Box,
            7 => Refusal::Structure,
            8 => Refusal::Level,
            9 => Refusal::Ray,
            10 => Refusal::Record,
            12 => Refusal::Losses,
            13 => Refusal::IndexSum,
            14 => Refusal::Spans,
            other => Refusal::Other(other),
        }
    }

    /// The number, as the library and its papers have it.
    pub fn number(self) -> u32 {
        match self {
            Refusal::Length => 1,
            Refusal::TooMany => 2,
            Refusal::Limit => 3,
            Refusal::Room => 4,
            Refusal::Link => 5,
            Refusal::Box => 6,
            Refusal::Structure => 7,
            Refusal::Level => 8,
            Refusal::Ray => 9,
            Refusal::Record => 10,
            Refusal::List { .. } => 11,
            Refusal::Losses => 12,
            Refusal::IndexSum => 13,
            Refusal::Spans => 14,
            Refusal::Other(number) => number,
        }
    }

    /// What is wrong.
    pub fn wrong(self) -> &'static str {
        match self {
            Refusal::Length => "some length is wrong for its layout, or the tree has not 2n - 1 nodes",
            Refusal::TooMany => {
                "there are more than 65,536 positions, those of two trees together, 65,535 record nodes or 65,536 rays of a report"
            }
            Refusal::Limit => "the leaf limit exceeds 3, or the order is neither 0 nor 1",
            Refusal::Room => "too little room was lent for outputs or work",
            Refusal::Link => "a link is of no known kind, or leads out of the tree or the index list",
            Refusal::Box => "a box is not finite, goes past 2^40 either way, or has a lower end above its upper one",
            Refusal::Structure => {
                "the links do not make one tree, or a path has over 127 edges, or a position is not held by exactly one leaf"
            }
            Refusal::Level => "some node of the record would lie deeper than level 31",
            Refusal::Ray => {
                "the ray's origin or direction is not finite or goes past 2^40 either way, or its tmin or tmax is no number"
            }
            Refusal::Record => "the record is damaged, an index names no pane, or the walker is forged",
            Refusal::List { .. } => "more positions are met than the list has room for",
            Refusal::Losses => "the losses are not one for each pane, or one is over 1,000,000",
            Refusal::IndexSum => "an index word of the second tree plus the first's panes is over 4,294,967,295",
            Refusal::Spans => {
                "the spans are not one for each pane, with a first no later than its last and that at most 95, or a ray's quarter \
                 hour is over 95, or the side table has not 16 bytes a node, or at conversion an index word names no pane"
            }
            Refusal::Other(_) => "the call was refused for a cause that these bindings do not know",
        }
    }

    /// What to do about it.
    pub fn remedy(self) -> &'static str {
        match self {
            Refusal::Length => {
                "a tree of n leaves has 7 (2n - 1) words, a record 80 bytes a node, a pane 6 floats, a ray 8 and a byte for its \
                 quarter hour: see that nothing was cut off"
            }
            Refusal::TooMany => "split the house, and convert its parts; split the list of rays",
            Refusal::Limit => "use a leaf limit from 0 to 3, and order 0 or 1",
            Refusal::Room => {
                "lend slices of the lengths that `Lengths` gives, and for a report a word for each ray and each pane"
            }
            Refusal::Link => "export the tree again: the words are damaged, or of another format",
            Refusal::Box => "look for the box in the model, and mend or leave out what it stands for",
            Refusal::Structure => "build the tree anew, with one primitive a leaf and every position once",
            Refusal::Level => "build a tree that is less one-sided; many boxes at one point make a long chain",
            Refusal::Ray => "look for a division by zero where the ray is made",
            Refusal::Record => {
                "run the record check, and convert the tree again if it is not sound; give the panes or losses that the index list was made for"
            }
            Refusal::List { .. } => "lend a list of the length needed",
            Refusal::Losses => "give each pane its loss in thousandths of a decibel, a whole number to 1,000,000",
            Refusal::IndexSum => "give how many panes the first tree is over, and count the second's panes from 0",
            Refusal::Spans => {
                "give each pane its first and last quarter hour, and what is there over midnight as two panes; give the side table \
                 that was converted with the record"
            }
            Refusal::Other(_) => "use bindings of the library's version",
        }
    }

    /// An answer that is not refused, or its refusal.
    pub(crate) fn unless(number: Number) -> Result<Number, Refusal> {
        match number.kind() {
            REFUSED => Err(Refusal::from_number(number.held())),
            _ => Ok(number),
        }
    }
}

impl fmt::Display for Refusal {
    fn fmt(&self, f: &mut fmt::Formatter<'_>) -> fmt::Result {
        write!(f, "refused {}: {}", self.number(), self.wrong())?;
        if let Refusal::List { needed } = self {
            write!(f, " ({needed} are needed)")?;
        }
        write!(f, "; {}", self.remedy())
    }
}

impl std::error::Error for Refusal {}

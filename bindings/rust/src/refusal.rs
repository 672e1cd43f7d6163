//! What a call answers that the original has no answer for.
use std::error::Error;
use std::fmt;

/// A question that a call was asked and answered with no. The graph is as it was.
#[derive(Clone, Copy, Debug, PartialEq, Eq, Hash)]
pub enum Refusal {
    /// 1: the region is no graph. A [`Graph`](crate::Graph) always holds one.
    Region,
    /// 2: a width is above 128.
    Width,
    /// 3: an id is not below the number of nodes.
    Id,
    /// 4: the operator does not take operands of these types, or give this type.
    Typing,
    /// 5: a Bool constant is neither 0 nor 1, or an input's range is empty or outside its type.
    Declaration,
    /// 6: the list has not one element for each node, or an operand of a kept node is dropped.
    Keep,
    /// 7: there is no room, since a graph holds 512 nodes.
    Room,
    /// 8: 1,024 entries into a builder do not suffice.
    Units,
    /// 9: sixteen marks stand.
    Marks,
    /// 10: the mark named does not stand.
    Mark,
    /// 11: a list has more than 32 guards.
    Guards,
}

const REFUSALS: [Refusal; 11] = [
    Refusal::Region,
    Refusal::Width,
    Refusal::Id,
    Refusal::Typing,
    Refusal::Declaration,
    Refusal::Keep,
    Refusal::Room,
    Refusal::Units,
    Refusal::Marks,
    Refusal::Mark,
    Refusal::Guards,
];

impl Refusal {
    /// The number of the question.
    pub fn number(self) -> u64 {
        self as u64 + 1
    }

    /// The refusal of an answer's number.
    pub(crate) fn of(answer: u64) -> Option<Self> {
        let place = (u64::MAX - answer).checked_sub(1)?;
        REFUSALS.get(usize::try_from(place).ok()?).copied()
    }

    fn words(self) -> &'static str {
        match self {
            Refusal::Region => "the region is no graph",
            Refusal::Width => "a width is above 128",
            Refusal::Id => "an id is not below the number of nodes",
            Refusal::Typing => "the operator and the types do not fit",
            Refusal::Declaration => {
                "a Bool constant is not 0 or 1, or a range is empty or outside its type"
            }
            Refusal::Keep => {
                "the list does not fit the nodes, or an operand of a kept node is dropped"
            }
            Refusal::Room => "there is no room for another node: a graph holds 512",
            Refusal::Units => "the call needs more than 1,024 steps",
            Refusal::Marks => "sixteen marks stand already",
            Refusal::Mark => "the mark does not stand",
            Refusal::Guards => "a list holds 32 guards at most",
        }
    }
}

impl fmt::Display for Refusal {
    fn fmt(&self, f: &mut fmt::Formatter<'_>) -> fmt::Result {
        write!(f, "refused {}: {}", self.number(), self.words())
    }
}

impl Error for Refusal {}

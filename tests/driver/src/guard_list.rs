// A list of guards: the two slices as they are lent.
use crate::native::{Scalar, ScalarType};

// The most guards of a list.
pub const GUARDS: usize = 32;

// The conditions and the answers as they are lent. A call can be told other lengths than there are words: of slices that are
// too long it must look at the lengths alone.
#[derive(Clone, Debug)]
pub struct GuardList {
    pub conditions: Vec<u64>,
    pub answers: Vec<u64>,
    pub told: Option<[usize; 2]>,
}

impl GuardList {
    pub fn new(conditions: Vec<u64>, answers: Vec<u64>) -> Self {
        GuardList {
            conditions,
            answers,
            told: None,
        }
    }

    pub fn of(guards: &[(u64, u64)]) -> Self {
        let (conditions, answers) = guards.iter().copied().unzip();
        GuardList::new(conditions, answers)
    }

    pub fn guards(&self) -> impl Iterator<Item = (u64, u64)> {
        self.conditions
            .iter()
            .copied()
            .zip(self.answers.iter().copied())
    }

    pub fn lengths(&self) -> [usize; 2] {
        self.told
            .unwrap_or([self.conditions.len(), self.answers.len()])
    }

    // The list without a guard, where both slices have its words and no others are told.
    pub fn without(&self, place: usize) -> Option<Self> {
        let mut list = self.clone();
        let is_there = place < self.answers.len() && self.told.is_none();
        is_there.then(|| {
            list.conditions.remove(place);
            list.answers.remove(place);
            list
        })
    }

    // The reasons of question 11: is the list too long, has it another number of answers, and is an answer past 1?
    pub fn faults(&self) -> [bool; 3] {
        let [conditions, answers] = self.lengths();
        let is_past_one = self.answers.iter().any(|answer| *answer > 1);
        [conditions > GUARDS, answers != conditions, is_past_one]
    }

    // Question 11.
    pub fn is_list(&self) -> bool {
        self.faults() == [false; 3]
    }

    // Would a guard of it be refused 3 or 4, as the graph is before it?
    pub fn has_other_refusal(&self, scalars: &[Scalar]) -> bool {
        let is_bool = |id: u64| {
            let scalar = scalars.get(id as usize);
            scalar.is_some_and(|scalar| scalar.ty == ScalarType::Bool)
        };
        self.conditions.iter().any(|id| !is_bool(*id))
    }
}

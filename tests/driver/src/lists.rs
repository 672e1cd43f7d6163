// Lists of guards: what a list must answer and leave, and its comparison. A list is its guards one after the
// other, each on the graph that the one before left, or nothing. So the original's graph is cloned, each guard in turn is asked its
// questions and assumed on the clone, and the clone is dropped where one is refused.
use crate::call::{Answer, Call};
use crate::classes::Outcome;
use crate::compare::{Asked, Comparison, Difference, REFUSALS, described, differing};
use crate::guard_list::{GUARDS, GuardList};
use crate::list_edges::LISTS_EDGES;
use crate::meter;
use crate::native::{Graph, Scalar};
use crate::original::apply;
use crate::words::{encode_aliases, encode_from, graph_of};
use std::collections::BTreeMap;

// What a list has come to: its answer, the guards taken before one was refused, and the nodes and aliases of these and of that one.
pub struct Taken {
    pub answer: Answer,
    pub guards: usize,
    stored: u64,
    aliases: u64,
}

impl Taken {
    fn refused(number: u64) -> Self {
        Taken {
            answer: Answer::Refused(number),
            guards: 0,
            stored: 0,
            aliases: 0,
        }
    }
}

// Takes a list on the original's graph, which stays as it is where a guard is refused.
pub fn take(graph: &mut Graph, list: &GuardList) -> Taken {
    let mut taken = Taken::refused(11);
    if !list.is_list() {
        return taken;
    }
    taken.answer = Answer::Done;
    let mut clone = graph.clone();
    for (condition, expected) in list.guards() {
        let call = Call::AssumeGuard {
            condition,
            expected,
        };
        taken.answer = apply(&mut clone, &call);
        taken.stored += meter::stored();
        taken.aliases += meter::aliases();
        if taken.answer != Answer::Done {
            return taken;
        }
        taken.guards += 1;
    }
    *graph = clone;
    taken
}

// Writes what a list has left, where the words are those before it and there were so many nodes.
fn write(graph: &Graph, count: usize, taken: &Taken, words: &mut [u64]) {
    if taken.answer == Answer::Done {
        encode_from(graph, count, words);
        encode_aliases(graph, words);
    }
}

// A list on any region, from which the original's maps are filled.
pub fn take_on(region: &mut [u64], list: &GuardList) -> Answer {
    let Some(mut graph) = graph_of(region) else {
        return Answer::Refused(1);
    };
    let count = graph.scalars.len();
    let taken = take(&mut graph, list);
    write(&graph, count, &taken, region);
    taken.answer
}

// The kind of call that a list is.
pub const LIST_KIND: &str = "guard list";

// What a list that is not refused has done, all its guards together.
pub const LIST_DONE: [&str; 4] = [
    "empty list",
    "list, nothing narrowed",
    "list, narrowed",
    "list, narrowed by an old node",
];

// The reasons of refusal 11, one alone or several.
pub const LIST_FAULTS: [&str; 4] = [
    "list refused 11, too long",
    "list refused 11, another number of answers",
    "list refused 11, an answer past 1",
    "list refused 11, several reasons",
];

// A list refused 3, 4 or 7, by the place of the guard that is.
pub const LIST_REFUSED: [[&str; 4]; 3] = [
    [
        "list refused 3, the only guard",
        "list refused 3, the first",
        "list refused 3, one between",
        "list refused 3, the last",
    ],
    [
        "list refused 4, the only guard",
        "list refused 4, the first",
        "list refused 4, one between",
        "list refused 4, the last",
    ],
    [
        "list refused 7, the only guard",
        "list refused 7, the first",
        "list refused 7, one between",
        "list refused 7, the last",
    ],
];

fn done_name(list: &GuardList, taken: &Taken) -> &'static str {
    let is_new = taken.stored == taken.aliases;
    let place = match taken.aliases {
        _ if list.conditions.is_empty() => 0,
        0 => 1,
        _ => 3 - usize::from(is_new),
    };
    LIST_DONE[place]
}

fn fault_name(list: &GuardList) -> &'static str {
    let faults = list.faults();
    let first = faults.iter().position(|is| *is);
    let has_several = faults.iter().filter(|is| **is).count() > 1;
    LIST_FAULTS[first.filter(|_| !has_several).unwrap_or(3)]
}

fn refused_name(question: usize, list: &GuardList, guards: usize) -> &'static str {
    let place = match list.conditions.len() - guards {
        1 if guards == 0 => 0,
        1 => 3,
        _ if guards == 0 => 1,
        _ => 2,
    };
    LIST_REFUSED[question][place]
}

fn name_of(list: &GuardList, taken: &Taken) -> &'static str {
    match taken.answer {
        Answer::Refused(11) => fault_name(list),
        Answer::Refused(3) => refused_name(0, list, taken.guards),
        Answer::Refused(4) => refused_name(1, list, taken.guards),
        Answer::Refused(7) => refused_name(2, list, taken.guards),
        Answer::Refused(number) => REFUSALS[number as usize],
        _ => done_name(list, taken),
    }
}

// What else was met, each counted once for a list.
pub const LIST_FACTS: [&str; 11] = [
    "refused 3, aliases taken back",
    "refused 4, aliases taken back",
    "refused 7, aliases taken back",
    "refused 7, aliases to old nodes taken back",
    "refused 3, a node that no guard before it has added",
    "refused 4, a node that a guard before it has added",
    "refused 11, where a guard would be refused 3 or 4",
    "refused 1, where the list would be refused 11",
    "on 510 nodes",
    "on 511 nodes",
    "on 512 nodes",
];

// Which of them hold of a list on these nodes, or on a region that is no graph.
fn facts(list: &GuardList, taken: &Taken, scalars: Option<&[Scalar]>) -> [bool; LIST_FACTS.len()] {
    let is = |number| taken.answer == Answer::Refused(number);
    let has_aliases = taken.aliases > 0;
    let count = scalars.map_or(0, <[Scalar]>::len);
    let refused = list.conditions.get(taken.guards).copied();
    let next = count as u64..(count + GUARDS) as u64;
    let is_new = taken.guards > 0 && refused.is_some_and(|id| next.contains(&id));
    let has_other = scalars.is_some_and(|scalars| list.has_other_refusal(scalars));
    [
        is(3) && has_aliases,
        is(4) && has_aliases,
        is(7) && has_aliases,
        is(7) && taken.aliases > taken.stored,
        is(3) && is_new,
        is(4) && is_new,
        is(11) && has_other,
        is(1) && !list.is_list(),
        count == 510,
        count == 511,
        count == 512,
    ]
}

// What was compared of lists, each list once.
#[derive(Default)]
pub struct Lists {
    pub lists: u64,
    // The library's own single guards beside them.
    pub singles: u64,
    // Of the random lists alone.
    pub facts: BTreeMap<&'static str, u64>,
    // By the number of conditions, all past `GUARDS` + 1 together: how many lists, and how many were not refused.
    pub lengths: BTreeMap<usize, [u64; 2]>,
}

impl Lists {
    fn count(&mut self, list: &GuardList, taken: &Taken, facts: [bool; LIST_FACTS.len()]) {
        let met = LIST_FACTS.iter().zip(facts).filter(|(_, is)| *is);
        for (fact, _) in met {
            *self.facts.entry(fact).or_default() += 1;
        }
        let length = list.lengths()[0].min(GUARDS + 2);
        let [all, done] = self.lengths.entry(length).or_default();
        *all += 1;
        *done += u64::from(taken.answer == Answer::Done);
    }
}

impl Comparison {
    // The lists that do not depend on the seed are left out of what was met: the random ones must meet it.
    fn count_met(&mut self, list: &GuardList, taken: &Taken, facts: [bool; LIST_FACTS.len()]) {
        self.lists.lists += 1;
        if self.class != LISTS_EDGES {
            self.lists.count(list, taken, facts);
        }
    }

    fn count_list(&mut self, name: &'static str) {
        let counts = self.counts.entry(self.class).or_default();
        counts.calls += 1;
        *counts.answers.entry(name).or_default() += 1;
        *counts.kinds.entry(LIST_KIND).or_default() += 1;
    }

    // Puts a list to the tier of the list of calls, and compares answer and words with these.
    fn put_list(
        &mut self,
        region: &mut [u64],
        before: &[u64],
        list: &GuardList,
        taken: &Taken,
    ) -> Outcome {
        let Some(found) = self.tier(taken.answer).guards(region, list) else {
            return Err("the side has no lists of guards".to_string());
        };
        if found == taken.answer && region == self.right {
            self.count_list(name_of(list, taken));
            return Ok(());
        }
        let difference = Difference {
            region: before.to_vec(),
            asked: Asked::List(list.clone()),
            right: (taken.answer, self.right.clone()),
            found: (found, region.to_vec()),
            is_twin: self.is_twin,
        };
        Err(self.smaller(difference).described())
    }

    // The side's own single guards lead to the same words, or the first that is refused to the same refusal.
    fn one_by_one(&mut self, before: &[u64], list: &GuardList, taken: &Taken) -> Outcome {
        let mut region = before.to_vec();
        let mut answer = Answer::Done;
        for (condition, expected) in list.guards().take_while(|_| list.is_list()) {
            let call = Call::AssumeGuard {
                condition,
                expected,
            };
            answer = self.side.call(&mut region, &call);
            self.lists.singles += 1;
            if answer != Answer::Done {
                break;
            }
        }
        let is_same = answer == taken.answer && (answer != Answer::Done || region == self.right);
        if is_same || !list.is_list() || list.conditions.is_empty() {
            return Ok(());
        }
        let found = described(before);
        let answers = format!("list: {:?}\none by one: {answer:?}\n", taken.answer);
        let words = differing(&self.right, &region);
        Err(format!("{list:?}\non:\n{found}{answers}{words}"))
    }

    // Compares a list with what the original has made of it and left in `self.right`, in both tiers and with single guards.
    fn settle_list(&mut self, region: &mut [u64], list: &GuardList, taken: &Taken) -> Outcome {
        let before = region.to_vec();
        self.put_list(region, &before, list, taken)?;
        if self.twin.is_some() && taken.answer != Answer::Refused(1) {
            self.is_twin = !self.is_twin;
            let compared = self.put_list(&mut before.clone(), &before, list, taken);
            self.is_twin = !self.is_twin;
            compared?;
        }
        self.one_by_one(&before, list, taken)
    }

    // A list on a region that has this graph with the original's maps.
    pub fn list_in(&mut self, region: &mut [u64], graph: &mut Graph, list: &GuardList) -> Outcome {
        let count = graph.scalars.len();
        let taken = take(graph, list);
        let facts = facts(list, &taken, Some(&graph.scalars[..count]));
        self.count_met(list, &taken, facts);
        write(graph, count, &taken, &mut self.right);
        self.settle_list(region, list, &taken)
    }

    // A list on any region, whose words were placed.
    pub fn list_on(&mut self, region: &mut [u64], list: &GuardList) -> Outcome {
        if let Some(mut graph) = graph_of(region) {
            return self.list_in(region, &mut graph, list);
        }
        let taken = Taken::refused(1);
        let facts = facts(list, &taken, None);
        self.count_met(list, &taken, facts);
        self.settle_list(region, list, &taken)
    }
}

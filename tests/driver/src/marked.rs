// Lists of calls with marks, on graphs that the calls grow. The original's graph can be cloned: a mark pushes a clone, a
// return assigns one and drops those after it, a retain that is not refused drops all. After every call the answer and
// every word of both regions are compared; the words of the marks' region are kept here, written from the clones.
use crate::call::{Answer, Call, Marking};
use crate::classes::{List, Outcome, Rounds};
use crate::compare::{Both, Comparison, REFUSALS, described, differing};
use crate::generate::{Source, Spread};
use crate::marks::{MOST, described_marks, no_marks, write_mark_of};
use crate::native::{Graph, ScalarType, opened};
use crate::original;
use crate::retains::Retain;
use crate::words::{LIMIT, UNTOUCHED, encode};
use std::mem;

pub const MARKED: &str = "marked";

// The kinds of calls about marks.
pub const MARKINGS: [&str; 3] = ["is marked", "mark", "return to"];

// What a return has done. An alias to a node from before the mark is one that the number of nodes does not tell of.
pub const RETURNED: [&str; 3] = [
    "returned, nothing changed",
    "returned",
    "returned, an alias to an old node taken back",
];

// A list with marks: the regions, what the marks' must be, and the original's graph with its clones.
pub struct MarkedList {
    pub list: List,
    marks: Vec<u64>,
    right_marks: Vec<u64>,
    clones: Vec<Graph>,
}

impl MarkedList {
    pub fn new(list: List) -> Self {
        MarkedList {
            list,
            marks: no_marks(),
            right_marks: no_marks(),
            clones: vec![],
        }
    }

    fn nodes(&self) -> usize {
        self.list.graph.scalars.len()
    }

    // Is an alias set that the clone has not, to a node that the clone has?
    fn has_old_alias(&self, clone: &Graph) -> bool {
        let nodes = clone.scalars.len();
        (0..nodes).any(|id| {
            let now = opened::alias(&self.list.graph, id);
            now != opened::alias(clone, id) && now.is_some_and(|alias| alias < nodes)
        })
    }

    // What a return to the clone does.
    fn returned(&self, clone: &Graph) -> &'static str {
        let has_same = opened::has_same_maps(&self.list.graph, clone);
        match has_same {
            true => RETURNED[0],
            false if self.has_old_alias(clone) => RETURNED[2],
            false => RETURNED[1],
        }
    }

    // What a call about marks must answer, and its name. The clones and the words are left as they must be.
    fn expect(&mut self, call: Marking) -> (Answer, &'static str) {
        match call {
            Marking::IsMarked => (Answer::Is(true), "is marked"),
            Marking::Mark if self.clones.len() == MOST => (Answer::Refused(9), REFUSALS[9]),
            Marking::Mark => {
                self.clones.push(self.list.graph.clone());
                (
                    write_mark_of(&self.list.graph, &mut self.right_marks),
                    "mark",
                )
            }
            Marking::ReturnTo(mark) if mark >= self.clones.len() as u64 => {
                (Answer::Refused(10), REFUSALS[10])
            }
            Marking::ReturnTo(mark) => {
                let clone = self.clones[mark as usize].clone();
                let name = self.returned(&clone);
                self.list.graph = clone;
                self.clones.truncate(mark as usize + 1);
                self.right_marks[0] = mark + 1;
                (Answer::Done, name)
            }
        }
    }
}

impl Comparison {
    fn count_marking(&mut self, call: Marking, name: &'static str) {
        let kind = match call {
            Marking::IsMarked => 0,
            Marking::Mark => 1,
            Marking::ReturnTo(_) => 2,
        };
        let counts = self.counts.entry(self.class).or_default();
        counts.calls += 1;
        *counts.answers.entry(name).or_default() += 1;
        *counts.kinds.entry(MARKINGS[kind]).or_default() += 1;
    }

    // Puts a call about marks to the tier of the list, and compares answer and regions with these.
    pub fn settle_marking(
        &mut self,
        both: Both,
        call: Marking,
        right: Answer,
        name: &'static str,
    ) -> Outcome {
        let Both { region, marks, .. } = both;
        let before = (region.to_vec(), marks.to_vec());
        let side = self.tier(right);
        let Some(found) = side.marking(region, marks, call) else {
            return Err("the side has no marks".to_string());
        };
        if found == right && region == self.right && marks == both.right_marks {
            self.count_marking(call, name);
            return Ok(());
        }
        let tier = if self.is_twin { " in graph" } else { "" };
        Err(format!(
            "call: {call:?}\non:\n{}and:\n{}original: {right:?}\ncompared{tier}: {found:?}\n{}marks' region:\n{}",
            described(&before.0),
            described_marks(&before.1),
            differing(&self.right, region),
            differing(both.right_marks, marks)
        ))
    }

    // A call about marks in a list.
    fn marking_grown(&mut self, list: &mut MarkedList, call: Marking) -> Result<Answer, String> {
        let (right, name) = list.expect(call);
        if right == Answer::Done {
            encode(&list.list.graph, &mut self.right);
        }
        let both = Both {
            region: &mut list.list.region,
            marks: &mut list.marks,
            right_marks: &list.right_marks,
        };
        self.settle_marking(both, call, right, name)?;
        Ok(right)
    }

    // A retain in a list.
    fn retain_marked(&mut self, list: &mut MarkedList, retain: &Retain) -> Result<Answer, String> {
        let mut mapping = vec![UNTOUCHED; retain.mapping];
        let right = original::retain(&mut list.list.graph, &retain.keep, &mut mapping);
        if right != Answer::Refused(6) {
            list.clones.clear();
            list.right_marks[0] = 0;
        }
        encode(&list.list.graph, &mut self.right);
        let both = Both {
            region: &mut list.list.region,
            marks: &mut list.marks,
            right_marks: &list.right_marks,
        };
        self.settle_retain(both, retain, right, &mapping)
    }
}

impl Source {
    // The nodes past so many are gone. A guard on one of them is now and then still kept in mind.
    fn take_back(&mut self, count: usize) {
        self.forget();
        for (id, expected) in mem::take(&mut self.assumed) {
            if id < count as u64 || self.random.once_in(6) {
                self.assumed.push((id, expected));
            }
        }
    }

    // Mostly the number of a mark that stands.
    pub fn mark_number(&mut self, standing: usize) -> u64 {
        match self.random.below(10) {
            0..6 if standing > 0 => self.random.below(standing) as u64,
            6 | 7 => (standing + self.random.below(3)).saturating_sub(1) as u64,
            8 => self
                .random
                .pick(&[15, 16, 17, 512, 1 << 32, 1 << 63, u64::MAX]),
            _ => self.random.below(21) as u64,
        }
    }
}

impl Rounds {
    // Calls in a list, which leave the marks as they are.
    fn calls_in(&mut self, list: &mut MarkedList, calls: usize) -> Outcome {
        for _ in 0..calls {
            let call = self.pick(&list.list.graph.scalars, Spread::Few);
            let answer = self.call_in(list, &call)?;
            self.source.hear(answer);
        }
        Ok(())
    }

    fn call_in(&mut self, list: &mut MarkedList, call: &Call) -> Result<Answer, String> {
        let answer = self.call_on(&mut list.list, call)?;
        if list.marks != list.right_marks {
            return Err(format!("{call:?} changed the marks' region"));
        }
        Ok(answer)
    }

    pub fn mark_in(&mut self, list: &mut MarkedList) -> Result<Answer, String> {
        self.comparison.marking_grown(list, Marking::Mark)
    }

    pub fn return_in(&mut self, list: &mut MarkedList, mark: u64) -> Outcome {
        let answer = self
            .comparison
            .marking_grown(list, Marking::ReturnTo(mark))?;
        if answer == Answer::Done {
            self.source.take_back(list.nodes());
        }
        Ok(())
    }

    // Guards that were assumed before, or the other way, and what is built on them.
    fn guards_in(&mut self, list: &mut MarkedList, guards: usize) -> Outcome {
        for _ in 0..guards {
            if let Some(call) = self.source.guard_again() {
                self.call_in(list, &call)?;
            }
        }
        Ok(())
    }

    // An arm of a branch: guards, and what is built on them.
    fn arm(&mut self, list: &mut MarkedList) -> Outcome {
        if self.source.random.once_in(3) {
            self.guards_in(list, 2)?;
        } else {
            self.source.begin_guards(&list.list.graph.scalars);
        }
        let calls = 2 + self.source.random.below(12);
        self.calls_in(list, calls)
    }

    // Both arms of a branch, or more, each from the same mark. The last one may be left standing.
    fn branch(&mut self, list: &mut MarkedList) -> Outcome {
        self.calls_in(list, 3)?;
        let mark = match self.mark_in(list)? {
            Answer::Mark(mark) => mark,
            _ => list.clones.len() as u64 - 1,
        };
        for _ in 0..1 + self.source.random.below(3) {
            self.arm(list)?;
            self.return_in(list, mark)?;
        }
        if self.source.random.once_in(2) {
            self.arm(list)?;
        }
        Ok(())
    }

    // Marks one upon another, up to the one that is refused.
    fn nest(&mut self, list: &mut MarkedList) -> Outcome {
        let marks = self.source.random.pick(&[2, 4, 17]);
        for _ in 0..marks {
            self.mark_in(list)?;
            let calls = self.source.random.below(4);
            self.calls_in(list, calls)?;
        }
        Ok(())
    }

    // Returns to any number, and each perhaps again.
    fn returns(&mut self, list: &mut MarkedList) -> Outcome {
        for _ in 0..1 + self.source.random.below(4) {
            let mark = self.source.mark_number(list.clones.len());
            self.return_in(list, mark)?;
            if self.source.random.once_in(2) {
                self.return_in(list, mark)?;
            }
            let calls = self.source.random.below(3);
            self.calls_in(list, calls)?;
        }
        self.comparison.marking_grown(list, Marking::IsMarked)?;
        Ok(())
    }

    // A retain of any kind, and a return after it.
    fn retain_in_marked(&mut self, list: &mut MarkedList) -> Outcome {
        let all = self.source.retains(&list.list.graph.scalars);
        let retain = &all[self.source.random.below(all.len())];
        let answer = self.comparison.retain_marked(list, retain)?;
        if answer != Answer::Refused(6) {
            self.source.renumber(&retain.keep);
        }
        let mark = self.source.mark_number(list.clones.len());
        self.return_in(list, mark)
    }

    // After a retain that keeps all or most nodes guards find their Refines again: the aliases that a return takes back
    // lead to nodes from before the mark.
    fn find_again(&mut self, list: &mut MarkedList) -> Outcome {
        self.arm(list)?;
        let retain = self.source.retain_most(&list.list.graph.scalars);
        self.comparison.retain_marked(list, &retain)?;
        self.source.renumber(&retain.keep);
        if self.source.random.once_in(3) {
            self.guards_in(list, 1)?;
        }
        for _ in 0..1 + self.source.random.below(3) {
            self.mark_in(list)?;
            self.guards_in(list, 4)?;
        }
        let mark = self.source.mark_number(list.clones.len());
        self.return_in(list, mark)?;
        self.guards_in(list, 2)?;
        self.return_in(list, 0)
    }

    fn stage(&mut self, list: &mut MarkedList) -> Outcome {
        match self.source.random.below(12) {
            0..5 => self.branch(list),
            5 | 6 => self.nest(list),
            7 | 8 => self.returns(list),
            9 => self.retain_in_marked(list),
            _ => self.find_again(list),
        }
    }

    // A list with marks from the empty graph; now and then it is nearly full first.
    pub fn marked_list(&mut self) -> Outcome {
        let mut list = MarkedList::new(self.begin_empty(MARKED));
        self.source.guarding = self.source.random.pick(&[3, 6, 10]);
        if self.source.random.once_in(2) {
            self.calls_in(&mut list, 20)?;
        }
        if self.source.random.once_in(40) {
            self.fill_up(&mut list)?;
        }
        for _ in 0..4 + self.source.random.below(8) {
            self.stage(&mut list)?;
        }
        self.end(&list.list);
        Ok(())
    }

    // What leads to guards, which are kept in mind and not yet assumed.
    fn prepare_guards(&mut self, list: &mut MarkedList) -> Outcome {
        self.source.begin_guards(&list.list.graph.scalars);
        self.follow_plan(|rounds, call| rounds.call_in(list, call))
    }

    // Prepares guards, and adds leaves until there is room for a few nodes alone: a guard is refused 7, perhaps after an
    // alias was set.
    fn fill_up(&mut self, list: &mut MarkedList) -> Outcome {
        for _ in 0..4 {
            self.prepare_guards(list)?;
        }
        let ty = ScalarType::Integer.into();
        let room = self.source.random.below(6);
        for number in 0.. {
            if list.nodes() >= LIMIT - room {
                break;
            }
            let number = 1000 + number;
            self.call_in(list, &Call::Effect { number, ty })?;
        }
        self.mark_in(list)?;
        self.guards_in(list, 12)?;
        self.return_in(list, 0)
    }
}

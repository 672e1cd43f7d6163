// Calls about marks on regions that no calls left: marks of any content, words of either region changed, and other lengths.
// What they must answer and leave is what the words say.
use crate::call::{Answer, Marking};
use crate::classes::{Outcome, Rounds};
use crate::compare::{Both, Comparison, REFUSALS};
use crate::generate::{Source, Spread};
use crate::marked::RETURNED;
use crate::marks::{MARKS, MOST, are_marks, by_words, mark_start, retain_by_words};
use crate::retains::Retain;
use crate::words::{LIMIT, REGION, UNTOUCHED, nodes_of, readable};

pub const MARK_WORDS: &str = "marks, any words";
pub const MARK_LENGTHS: &str = "marks, other length";

// Lengths of the marks' region that are not its own, and of the graph's.
const LENGTHS: [usize; 9] = [0, 1, 2, 513, 514, 7696, MARKS - 1, MARKS + 1, MARKS + 513];
const GRAPH_LENGTHS: [usize; 4] = [0, 1, REGION - 1, REGION + 1];

// The regions, the calls on each, and how many calls go on from what the one before left.
const REGIONS: usize = 3;
const RETURNS: usize = 3;
const IN_LIST: usize = 6;

impl Source {
    // Any content of the free words.
    fn free_words(&mut self) -> Vec<u64> {
        match self.random.below(3) {
            0 => vec![0; MARKS],
            1 => vec![UNTOUCHED; MARKS],
            _ => (0..MARKS).map(|_| self.random.next() % 600).collect(),
        }
    }

    // An alias word of a node of so many: none, or any above it.
    fn alias_of(&mut self, id: usize, nodes: usize) -> u64 {
        if id + 1 >= nodes || self.random.once_in(2) {
            return 0;
        }
        (id + 2 + self.random.below(nodes - id - 1)) as u64
    }

    // Marks that pass question 1 with a graph of so many nodes.
    fn marks(&mut self, count: usize) -> Vec<u64> {
        let mut marks = self.free_words();
        let standing = self.random.pick(&[0, 1, 1, 2, 3, 5, 15, 16]);
        let mut counts: Vec<usize> = (0..standing)
            .map(|_| self.random.below(count + 1))
            .collect();
        counts.sort_unstable();
        marks[0] = standing as u64;
        for (mark, nodes) in counts.into_iter().enumerate() {
            let at = mark_start(mark);
            marks[at] = nodes as u64;
            for id in 0..nodes {
                marks[at + 1 + id] = self.alias_of(id, nodes);
            }
        }
        marks
    }

    // Changes a word: how many marks stand, a mark's number of nodes, an alias word about the end of a mark's nodes, or
    // any.
    fn damage_marks(&mut self, marks: &mut [u64], count: u64) {
        let standing = marks[0].min(MOST as u64) as usize;
        let mark = self.random.below((standing + 1).min(MOST));
        let at = mark_start(mark);
        let nodes = marks[at].min(LIMIT as u64);
        let id = self.random.below((nodes as usize + 2).min(LIMIT)) as u64;
        let (at, near) = match self.random.below(6) {
            0 => (0, [0, 1, 15, 16, 17, 1 << 32]),
            1 | 2 => {
                let next = marks.get(at + 1 + LIMIT).copied().unwrap_or(count);
                (at, [nodes + 1, next, next + 1, count, count + 1, u64::MAX])
            }
            3 | 4 => {
                let at = at + 1 + id as usize;
                (at, [id, id + 1, id + 2, nodes, nodes + 1, u64::MAX])
            }
            _ => (self.random.below(MARKS), [0, 1, 2, 512, 513, 1 << 63]),
        };
        marks[at] = match self.random.below(4) {
            0 => self.other(marks[at]),
            _ => self.random.pick(&near),
        };
    }

    // One call of each kind, and returns to several numbers.
    fn markings(&mut self, standing: u64) -> Vec<Marking> {
        let standing = standing.min(MOST as u64) as usize;
        let returns = (0..RETURNS).map(|_| Marking::ReturnTo(self.mark_number(standing)));
        let mut all: Vec<Marking> = returns.collect();
        all.extend([Marking::IsMarked, Marking::Mark]);
        all
    }
}

// The answer's name, where the words were these before a call and those after it.
fn name_of(right: Answer, before: &[u64], after: &[u64]) -> &'static str {
    match right {
        Answer::Is(true) => "is marked",
        Answer::Is(false) => "is not marked",
        Answer::Mark(_) => "mark",
        Answer::Done if before == after => RETURNED[0],
        Answer::Done => RETURNED[1],
        Answer::Refused(number) => REFUSALS[number as usize],
        _ => "spoilt",
    }
}

impl Comparison {
    // A call about marks on any regions.
    fn marking(&mut self, region: &mut [u64], marks: &mut [u64], call: Marking) -> Outcome {
        self.place(region);
        let mut right_marks = marks.to_vec();
        let right = by_words(&mut self.right, &mut right_marks, call);
        let name = name_of(right, region, &self.right);
        let both = Both {
            region,
            marks,
            right_marks: &right_marks,
        };
        self.settle_marking(both, call, right, name)
    }

    // A retain on any regions.
    fn retain_both(&mut self, region: &mut [u64], marks: &mut [u64], retain: &Retain) -> Outcome {
        self.place(region);
        let mut right_marks = marks.to_vec();
        let mut mapping = vec![UNTOUCHED; retain.mapping];
        let right = retain_by_words(
            &mut self.right,
            &mut right_marks,
            &retain.keep,
            &mut mapping,
        );
        let both = Both {
            region,
            marks,
            right_marks: &right_marks,
        };
        self.settle_retain(both, retain, right, &mapping)?;
        Ok(())
    }
}

impl Rounds {
    // Every kind of call about marks, and retains, on copies of both regions.
    fn each_on_copies(&mut self, region: &[u64], marks: &[u64]) -> Outcome {
        let standing = marks.first().copied().unwrap_or(0);
        for call in self.source.markings(standing) {
            self.comparison.is_twin = self.source.random.once_in(2);
            let (mut region, mut marks) = (region.to_vec(), marks.to_vec());
            self.comparison.marking(&mut region, &mut marks, call)?;
        }
        let retains = self.source.retains(&readable(region));
        for _ in 0..2 {
            let retain = &retains[self.source.random.below(retains.len())];
            self.comparison.is_twin = self.source.random.once_in(2);
            let (mut region, mut marks) = (region.to_vec(), marks.to_vec());
            self.comparison
                .retain_both(&mut region, &mut marks, retain)?;
        }
        Ok(())
    }

    // Calls about marks and others by turns, each on what the one before left, up to one that leaves no graph.
    fn list_on(&mut self, region: &mut [u64], marks: &mut [u64]) -> Outcome {
        self.comparison.is_twin = self.source.random.once_in(2);
        self.source.forget();
        for _ in 0..IN_LIST {
            if nodes_of(region).is_none() {
                break;
            }
            let call = self.pick(&readable(region), Spread::Few);
            self.comparison.place(region);
            let answer = self.comparison.call(region, &call)?;
            self.source.hear(answer);
            for call in self.source.markings(marks[0]).into_iter().take(2) {
                self.comparison.marking(region, marks, call)?;
            }
            self.comparison.marking(region, marks, Marking::Mark)?;
        }
        Ok(())
    }

    // Marks that pass, and then words changed of either region.
    fn marks_of_any_words(&mut self) -> Outcome {
        let mut region = self.good_region();
        let count = region[0];
        let mut marks = self.source.marks(count as usize);
        assert!(are_marks(&marks, count), "they pass question 1");
        for _ in 0..self.source.random.below(3) {
            self.source.damage_marks(&mut marks, count);
        }
        if self.source.random.once_in(6) {
            self.source.damage(&mut region);
        }
        self.comparison.start(MARK_WORDS, &region);
        self.each_on_copies(&region, &marks)?;
        self.list_on(&mut region, &mut marks)?;
        self.comparison.is_twin = false;
        Ok(())
    }

    // A marks' region of another length, or marks that pass with a graph's region of another length.
    fn marks_of_another_length(&mut self) -> Outcome {
        let mut region = self.good_region();
        let mut marks = self.source.marks(region[0] as usize);
        if self.source.random.once_in(3) {
            region.resize(self.source.random.pick(&GRAPH_LENGTHS), 0);
        } else {
            marks.resize(self.source.random.pick(&LENGTHS), 0);
        }
        self.comparison.start(MARK_LENGTHS, &region);
        self.each_on_copies(&region, &marks)?;
        self.comparison.is_twin = false;
        Ok(())
    }

    pub fn mark_regions(&mut self) -> Outcome {
        for _ in 0..REGIONS {
            self.marks_of_any_words()?;
        }
        self.marks_of_another_length()
    }
}

// The classes of regions, and a round through them.
use crate::call::{Answer, Call, GUARD_WORDS};
use crate::compare::Comparison;
use crate::edges::{self, Step};
use crate::generate::{Source, Spread};
use crate::lines::HELD;
use crate::meter::Kind;
use crate::native::{Graph, Scalar, ScalarType, opened};
use crate::plans::ADD;
use crate::retains::Retain;
use crate::sweep;
use crate::words::{LIMIT, REGION, encode, graph_of, readable};
use std::mem;

pub const GROWN: &str = "grown";
pub const GUARDED: &str = "guarded";
pub const FULL: &str = "full";
pub const OTHER: &str = "other";
pub const DAMAGED: &str = "damaged";
pub const PASSING: &str = "damaged, passes";
pub const LENGTH: &str = "length";
pub const SWEPT: &str = "swept";
pub const EDGES: &str = "edges";

const LENGTHS: [usize; 7] = [0, 1, 2, 13, 6133, REGION - 1, REGION + 1];

// The kind of region by which a class counts sites.
pub fn kind_of(class: &str) -> Kind {
    match class {
        GROWN | GUARDED | FULL => Kind::Grown,
        OTHER | PASSING => Kind::Other,
        _ => Kind::Fixed,
    }
}

pub type Outcome = Result<(), String>;

// A region that calls have grown, and the graph that the original has grown beside it.
pub struct List {
    pub region: Vec<u64>,
    pub graph: Graph,
}

pub struct Rounds {
    pub source: Source,
    // For the calls with any numbers.
    pub numbers: Source,
    // For the calls with marks.
    pub marks: Source,
    // For the lists of guards.
    pub lists: Source,
    pub comparison: Comparison,
    // How often a word of each kind was changed, and how often the region was no graph then.
    pub damages: Vec<[u64; 2]>,
}

impl Rounds {
    pub fn pick(&mut self, scalars: &[Scalar], spread: Spread) -> Call {
        loop {
            let call = self.source.call(scalars, spread);
            if self.comparison.side.takes(&call) {
                return call;
            }
        }
    }

    // Begins a list of calls on a graph that calls have grown, with the original's own maps. Every other list is put
    // to the tier for regions that are known to be graphs.
    pub fn begin(&mut self, class: &'static str, graph: Graph) -> List {
        let mut region = vec![0; REGION];
        encode(&graph, &mut region);
        self.comparison.start(class, &region);
        self.comparison.is_twin = self.source.random.once_in(2);
        List { region, graph }
    }

    // Begins a list on the region of zeros.
    pub fn begin_empty(&mut self, class: &'static str) -> List {
        self.source.start();
        self.begin(class, Graph::default())
    }

    pub fn call_on(&mut self, list: &mut List, call: &Call) -> Result<Answer, String> {
        let List { region, graph } = list;
        self.comparison.call_grown(region, graph, call)
    }

    // The calls of a plan that leads to guards, each made in this way; the guards themselves are kept in mind and not assumed.
    pub fn follow_plan(
        &mut self,
        mut made: impl FnMut(&mut Self, &Call) -> Result<Answer, String>,
    ) -> Outcome {
        while let Some(call) = self.source.plan.next() {
            self.source.remember(&call);
            let answer = match call {
                Call::AssumeGuard { .. } => Answer::Done,
                _ => made(self, &call)?,
            };
            self.source.hear(answer);
        }
        Ok(())
    }

    fn grow(&mut self, list: &mut List, calls: usize, spread: Spread) -> Outcome {
        for _ in 0..calls {
            let call = self.pick(&list.graph.scalars, spread);
            let answer = self.call_on(list, &call)?;
            self.source.hear(answer);
        }
        Ok(())
    }

    // The original's own maps are those that are filled from the region, and its words those compared.
    pub fn end(&mut self, list: &List) {
        let filled = graph_of(&list.region).expect("a grown region is a graph");
        assert!(
            opened::has_same_maps(&list.graph, &filled),
            "the maps of a grown graph are those filled from its region"
        );
        let mut words = vec![0; REGION];
        encode(&list.graph, &mut words);
        assert!(words == list.region, "the words of a grown graph");
        self.comparison.is_twin = false;
    }

    // Retains of each kind on copies of the region.
    fn retains_on(&mut self, class: &'static str, region: &[u64]) -> Outcome {
        self.comparison.start(class, region);
        for retain in self.source.retains(&readable(region)) {
            self.comparison.is_twin = self.source.random.once_in(2);
            self.comparison.retain(&mut region.to_vec(), &retain)?;
        }
        self.comparison.is_twin = false;
        Ok(())
    }

    // A retain in the midst of a list.
    fn retain_in(&mut self, list: &mut List) -> Outcome {
        let retain = self.source.retain(&list.graph.scalars);
        let List { region, graph } = list;
        self.comparison.retain_grown(region, graph, &retain)?;
        self.source.renumber(&retain.keep);
        Ok(())
    }

    fn grown(&mut self) -> Outcome {
        let mut list = self.begin_empty(GROWN);
        let calls = 60 + self.source.random.below(400);
        self.grow(&mut list, calls, Spread::Few)?;
        for _ in 0..self.source.random.below(4) {
            self.retain_in(&mut list)?;
            self.grow(&mut list, 30, Spread::Few)?;
        }
        self.end(&list);
        self.retains_on(GROWN, &list.region)?;
        if self.source.has_numbers {
            self.numbers_in(&mut list)?;
        }
        Ok(())
    }

    // A retain in the midst of a list that keeps every node, or nearly every one, and the guards before it again:
    // their Refines stand there already.
    fn guards_again(&mut self, list: &mut List) -> Outcome {
        let scalars = &list.graph.scalars;
        let retain = self.source.retain_most(scalars);
        let List { region, graph } = list;
        self.comparison.retain_grown(region, graph, &retain)?;
        self.source.renumber(&retain.keep);
        for _ in 0..6 {
            if let Some(call) = self.source.guard_again() {
                self.call_on(list, &call)?;
            }
        }
        Ok(())
    }

    // A list of calls that lead to guards, and retains among them.
    fn guarded(&mut self) -> Outcome {
        let mut list = self.begin_empty(GUARDED);
        self.source.guarding = 10;
        for _ in 0..3 + self.source.random.below(6) {
            for _ in 0..4 {
                self.source.begin_guards(&list.graph.scalars);
                self.grow(&mut list, 16, Spread::Few)?;
            }
            if self.source.random.once_in(3) {
                self.retain_in(&mut list)?;
            } else {
                self.guards_again(&mut list)?;
            }
        }
        self.end(&list);
        Ok(())
    }

    // A list in which some value is doubled again and again, so that a reduction of it is dear.
    fn doubled(&mut self, list: &mut List) -> Result<u64, String> {
        let width = self.source.width().max(9);
        let ty = ScalarType::Bits(width).into();
        let leaf = Call::Effect { number: 0, ty };
        let mut last = self.call_on(list, &leaf)?;
        for _ in 0..6 + self.source.random.below(4) {
            let Answer::Id(id) = last else {
                return Ok(0);
            };
            let call = Call::Binary {
                ty,
                op: ADD,
                left: id,
                right: id,
            };
            last = self.call_on(list, &call)?;
        }
        match last {
            Answer::Id(id) => Ok(id),
            _ => Ok(0),
        }
    }

    // Grows a graph, fills it up to a little room, and goes on: so a call is refused 7 in the middle of its work, and
    // refused 7 or 8 where it would meet both.
    fn fill(&mut self) -> Outcome {
        let mut list = self.begin_empty(FULL);
        let calls = self.source.random.below(200);
        self.grow(&mut list, calls, Spread::Few)?;
        let dear = self.doubled(&mut list)?;
        let room = self.source.random.below(16);
        let mut number = 0;
        while list.graph.scalars.len() < LIMIT - room {
            let ty = self.source.known_type().into();
            self.call_on(&mut list, &Call::Effect { number, ty })?;
            number += 1;
        }
        for width in [self.source.width().into(), 7] {
            let reduction = Call::Slice {
                id: dear,
                offset: 0,
                width,
            };
            self.call_on(&mut list, &reduction)?;
        }
        let calls = 100 + self.source.random.below(200);
        self.grow(&mut list, calls, Spread::Many)?;
        self.end(&list);
        Ok(())
    }

    // A list on a graph that is nearly full: at first with calls for which there is hardly enough room.
    fn nearly_full(&mut self) -> Outcome {
        let graph = self.source.full_graph();
        let mut list = self.begin(FULL, graph);
        for _ in 0..12 {
            let call = self.source.heavy(&list.graph.scalars);
            self.call_on(&mut list, &call)?;
        }
        self.grow(&mut list, 12, Spread::Few)?;
        self.end(&list);
        Ok(())
    }

    // Guards on a graph that is nearly full: refused at the first node, at the second operand's, and in a chain of
    // sums.
    fn guards_when_full(&mut self) -> Outcome {
        let graph = self.source.guarded_full_graph();
        let mut list = self.begin(FULL, graph);
        for _ in 0..16 {
            if let Some(call) = self.source.guard_again() {
                self.call_on(&mut list, &call)?;
            }
        }
        // A full graph too has room for a guard whose nodes stand there.
        self.guards_again(&mut list)?;
        self.grow(&mut list, 6, Spread::Few)?;
        self.end(&list);
        Ok(())
    }

    // Each of some conditions of a region on a copy of it: assumed both ways, and its guard matched with two values.
    fn guards_on(&mut self, class: &'static str, region: &[u64]) -> Outcome {
        self.comparison.start(class, region);
        for condition in self.source.conditions(&readable(region)) {
            for expected in [0, 1] {
                self.comparison.is_twin = self.source.random.once_in(2);
                self.guard_on(region, condition, expected)?;
            }
        }
        self.comparison.is_twin = false;
        Ok(())
    }

    fn guard_on(&mut self, region: &[u64], condition: u64, expected: u64) -> Outcome {
        let mut copy = region.to_vec();
        self.comparison.place(region);
        let guard = Call::Guard {
            condition,
            expected,
            room: GUARD_WORDS,
        };
        let answer = self.comparison.call(&mut copy, &guard)?;
        if let Answer::Guard([op, _, _, expected, host64]) = answer {
            let [left, right] = self.source.two_values();
            let matches = Call::Matches {
                op,
                expected,
                host64,
                left,
                right,
            };
            self.comparison.call(&mut copy, &matches)?;
        }
        let assume = Call::AssumeGuard {
            condition,
            expected,
        };
        self.comparison.call(&mut copy, &assume)?;
        Ok(())
    }

    // Calls on a region, up to one that leaves no graph.
    fn calls_on(&mut self, class: &'static str, region: &mut [u64], calls: usize) -> Outcome {
        self.comparison.start(class, region);
        self.comparison.is_twin = self.source.random.once_in(2);
        self.source.look_at(region);
        for _ in 0..calls {
            let call = self.pick(&readable(region), Spread::Few);
            let answer = self.comparison.call(region, &call)?;
            self.source.hear(answer);
            if answer == Answer::Refused(1) {
                break;
            }
        }
        self.comparison.is_twin = false;
        Ok(())
    }

    fn each_call_on(&mut self, class: &'static str, region: &mut [u64]) -> Outcome {
        self.comparison.start(class, region);
        for call in self.source.calls(&readable(region)) {
            if self.comparison.side.takes(&call) {
                self.comparison.call(region, &call)?;
            }
        }
        Ok(())
    }

    pub fn good_region(&mut self) -> Vec<u64> {
        if self.source.random.once_in(3) {
            self.source.other_region()
        } else {
            self.source.grown_region()
        }
    }

    fn damage(&mut self, region: &[u64]) -> Outcome {
        let mut damaged = region.to_vec();
        let kind = self.source.damage(&mut damaged);
        let is_graph = graph_of(&damaged).is_some();
        self.damages[kind][0] += 1;
        self.damages[kind][1] += u64::from(!is_graph);
        let class = if is_graph { PASSING } else { DAMAGED };
        self.retains_on(class, &damaged)?;
        if is_graph {
            self.guards_on(class, &damaged)?;
        }
        self.each_call_on(class, &mut damaged)
    }

    // A good region cut short, or one word too long.
    fn other_length(&mut self) -> Outcome {
        let len = self.source.random.pick(&LENGTHS);
        let mut region = self.good_region();
        region.resize(len, 0);
        self.retains_on(LENGTH, &region)?;
        self.each_call_on(LENGTH, &mut region)
    }

    // What does not depend on the seed.
    pub fn fixed(&mut self) -> Outcome {
        for mut region in sweep::regions() {
            self.comparison.start(SWEPT, &region);
            self.comparison.call(&mut region, &Call::IsGraph)?;
        }
        let mut held = vec![0; HELD];
        self.comparison.start(EDGES, &held);
        for step in edges::steps() {
            match step {
                Step::Region(region) => {
                    held.fill(0);
                    held[..region.len()].copy_from_slice(&region);
                }
                Step::Call(len, call) => {
                    if self.comparison.side.takes(&call) {
                        self.comparison.place(&held[..len]);
                        self.comparison.call(&mut held[..len], &call)?;
                    }
                }
                Step::Retain(keep) => {
                    let retain = Retain::new(keep, "all kept");
                    self.comparison.retain(&mut held[..REGION], &retain)?;
                }
                Step::Look(_) => {}
            }
        }
        if self.source.has_numbers {
            self.choices()?;
            self.list_edges()?;
        }
        Ok(())
    }

    pub fn round(&mut self, number: u64) -> Outcome {
        self.grown()?;
        self.guarded()?;
        self.nearly_full()?;
        self.guards_when_full()?;
        if number.is_multiple_of(50) {
            self.fill()?;
        }
        for _ in 0..5 {
            let mut region = self.source.other_region();
            self.retains_on(OTHER, &region)?;
            self.guards_on(OTHER, &region)?;
            self.calls_on(OTHER, &mut region, 16)?;
        }
        let good = self.good_region();
        for _ in 0..8 {
            self.damage(&good)?;
        }
        if self.source.has_numbers {
            self.numbers()?;
            self.marks()?;
            self.lists()?;
        }
        self.other_length()
    }

    // The round's calls with marks. They have a source of their own, so that the other classes' calls do not depend on
    // them.
    pub fn marks(&mut self) -> Outcome {
        mem::swap(&mut self.source, &mut self.marks);
        let compared = self.marked_list().and_then(|()| self.mark_regions());
        mem::swap(&mut self.source, &mut self.marks);
        compared
    }
}

// Random lists of guards, on graphs that calls have grown, on full ones, on regions that no calls could have grown, between marks,
// and on regions that are no graph.
use crate::classes::{List, Outcome, Rounds};
use crate::generate::Source;
use crate::guard_list::{GUARDS, GuardList};
use crate::guards::{is_comparison, is_not};
use crate::lists::take;
use crate::marked::MarkedList;
use crate::native::{Graph, Scalar, ScalarType};
use crate::words::{graph_of, readable};

pub const LISTS_GROWN: &str = "listed";
pub const LISTS_FULL: &str = "listed, full";
pub const LISTS_MARKED: &str = "listed, marked";
pub const LISTS_OTHER: &str = "listed, other";
pub const LISTS_NO_GRAPH: &str = "listed, no graph";

// The guards that are prepared at once, and the lists that are then put.
const PREPARED: usize = 3;
const LISTS: usize = 5;
// The lists on copies of a region, and those on the region itself.
const ON_COPIES: usize = 5;
const ON_ITSELF: usize = 3;

// Lengths that are too long, and answers that are past 1.
const LONG: [usize; 8] = [33, 33, 34, 40, 64, 65, 288, 4096];
const TOLD: [usize; 4] = [65536, 1 << 32, 1 << 63, usize::MAX];
const PAST_ONE: [u64; 7] = [2, 2, 3, 255, 1 << 32, 1 << 63, u64::MAX];

impl Source {
    // The number of guards of a list.
    fn list_length(&mut self) -> usize {
        match self.random.below(40) {
            0 => self.random.pick(&LONG),
            1..6 => 1 + self.random.below(4),
            _ => self.random.below(GUARDS + 1),
        }
    }

    // So many guards on Bools, mostly guards kept in mind, some the other way. On no Bools there are none.
    fn list_guards(&mut self, scalars: &[Scalar], length: usize) -> Vec<(u64, u64)> {
        let bools: Vec<u64> = (0..scalars.len() as u64)
            .filter(|id| scalars[*id as usize].ty == ScalarType::Bool)
            .collect();
        let says = |id: &u64| {
            let scalar = &scalars[*id as usize];
            is_comparison(scalar) || is_not(scalar)
        };
        let known: Vec<u64> = bools.iter().copied().filter(says).collect();
        let mut assumed = self.assumed.clone();
        assumed.retain(|(id, _)| bools.binary_search(id).is_ok());
        let mut guards = vec![];
        while guards.len() < length && !bools.is_empty() {
            let (condition, expected) = match self.random.below(8) {
                0 => (self.random.pick(&bools), self.random.next() % 2),
                1 | 2 if !known.is_empty() => (self.random.pick(&known), self.random.next() % 2),
                _ if !assumed.is_empty() => self.random.pick(&assumed),
                _ => (self.random.pick(&bools), 1),
            };
            let flip = u64::from(self.random.once_in(6));
            guards.push((condition, expected ^ flip));
        }
        guards
    }

    // The first, the last or any of so many places.
    fn place(&mut self, places: usize) -> usize {
        match self.random.below(3) {
            0 => 0,
            1 => places - 1,
            _ => self.random.below(places),
        }
    }

    // An id that is no condition: of any node, of one that the guards before may add, or of none.
    fn wrong_condition(&mut self, scalars: &[Scalar], place: usize) -> u64 {
        let count = scalars.len() as u64;
        match self.random.below(4) {
            0 => self
                .find(scalars, |scalar| scalar.ty != ScalarType::Bool)
                .unwrap_or(count),
            1 | 2 => count + self.random.below(place.min(4) + 1) as u64,
            _ => self.id(count),
        }
    }

    // The list with one thing wrong.
    fn spoil(&mut self, scalars: &[Scalar], list: &mut GuardList) {
        let [conditions, answers] = [&list.conditions, &list.answers].map(Vec::len);
        match self.random.below(12) {
            0..9 if conditions > 0 => {
                let place = self.place(conditions);
                list.conditions[place] = self.wrong_condition(scalars, place);
            }
            9 if answers > 0 => {
                let place = self.place(answers);
                list.answers[place] = self.random.pick(&PAST_ONE);
            }
            10 => {
                let length = match self.random.below(4) {
                    0 => answers.saturating_sub(1),
                    1 => answers + 1,
                    2 => self.random.pick(&LONG),
                    _ => self.random.below(GUARDS + 2),
                };
                list.answers.resize(length, self.random.next() % 2);
            }
            _ => {
                let long = self.random.pick(&TOLD);
                let lengths = [[long; 2], [long, answers], [conditions, long]];
                list.told = Some(self.random.pick(&lengths));
            }
        }
    }

    // A list on these nodes, in which mostly nothing or one thing is wrong.
    fn any_list(&mut self, scalars: &[Scalar]) -> GuardList {
        let length = self.list_length();
        let guards = self.list_guards(scalars, length);
        let mut list = GuardList::of(&guards);
        let wrong = self.random.pick(&[0, 0, 0, 0, 1, 1, 1, 2]);
        for _ in 0..wrong {
            self.spoil(scalars, &mut list);
        }
        list
    }

    // A list on a graph, now and then ending with the guard that is refused.
    fn guard_list(&mut self, graph: &Graph) -> GuardList {
        let mut list = self.any_list(&graph.scalars);
        if self.random.once_in(3) && list.is_list() {
            let taken = take(&mut graph.clone(), &list);
            list.conditions.truncate(taken.guards + 1);
            list.answers.truncate(taken.guards + 1);
        }
        list
    }
}

impl Rounds {
    // What leads to guards, which are kept in mind and not assumed.
    fn prepare(&mut self, list: &mut List) -> Outcome {
        self.source.begin_guards(&list.graph.scalars);
        self.follow_plan(|rounds, call| rounds.call_on(list, call))
    }

    // A list in a list of calls.
    fn list_in(&mut self, list: &mut List) -> Outcome {
        let guards = self.source.guard_list(&list.graph);
        let List { region, graph } = list;
        self.comparison.list_in(region, graph, &guards)
    }

    fn lists_in(&mut self, list: &mut List, lists: usize) -> Outcome {
        (0..lists).try_for_each(|_| self.list_in(list))
    }

    // Lists on copies of a region: each finds the graph as it is.
    fn lists_on_copies(&mut self, list: &List, lists: usize) -> Outcome {
        for _ in 0..lists {
            let guards = self.source.guard_list(&list.graph);
            let (mut region, mut graph) = (list.region.clone(), list.graph.clone());
            self.comparison.list_in(&mut region, &mut graph, &guards)?;
            self.comparison.place(&list.region);
        }
        Ok(())
    }

    // Lists, each on what the one before left. Where the binding does not hold the graph they are put to copies too.
    fn some_lists(&mut self, list: &mut List) -> Outcome {
        if !self.comparison.is_twin {
            self.lists_on_copies(list, LISTS)?;
        }
        self.lists_in(list, LISTS)
    }

    // A retain that keeps every node, or nearly every one: the lists after it find the Refines of those before it.
    fn lists_again(&mut self, list: &mut List) -> Outcome {
        let retain = self.source.retain_most(&list.graph.scalars);
        let List { region, graph } = list;
        self.comparison.retain_grown(region, graph, &retain)?;
        self.source.renumber(&retain.keep);
        self.some_lists(list)
    }

    // Calls, and lists of the guards that they lead to, from the empty graph.
    fn listed(&mut self) -> Outcome {
        let mut list = self.begin_empty(LISTS_GROWN);
        self.list_in(&mut list)?;
        for _ in 0..1 + self.source.random.below(4) {
            for _ in 0..PREPARED {
                self.prepare(&mut list)?;
            }
            self.some_lists(&mut list)?;
            if self.source.random.once_in(2) {
                self.lists_again(&mut list)?;
            }
        }
        self.end(&list);
        Ok(())
    }

    // Lists on a graph that is nearly full, and again after a retain: a full graph has room for guards whose nodes stand there.
    fn listed_when_full(&mut self) -> Outcome {
        let graph = self.source.guarded_full_graph();
        let mut list = self.begin(LISTS_FULL, graph);
        self.comparison.is_twin = false;
        self.lists_on_copies(&list, LISTS)?;
        self.lists_again(&mut list)?;
        self.end(&list);
        Ok(())
    }

    // Lists on a region that no calls could have grown.
    fn listed_on_another(&mut self) -> Outcome {
        let mut region = match self.source.random.below(3) {
            0 => self.source.other_region(),
            _ => self.source.guard_region(),
        };
        let filled = |region: &[u64]| graph_of(region).expect("it passes question 1");
        self.comparison.start(LISTS_OTHER, &region);
        let copied = List {
            region: region.clone(),
            graph: filled(&region),
        };
        self.lists_on_copies(&copied, ON_COPIES)?;
        for _ in 0..ON_ITSELF {
            let guards = self.source.guard_list(&filled(&region));
            self.comparison.list_on(&mut region, &guards)?;
        }
        Ok(())
    }

    // Lists in the arms of a branch, with the returns that take them back.
    fn listed_between_marks(&mut self) -> Outcome {
        let mut list = MarkedList::new(self.begin_empty(LISTS_MARKED));
        for _ in 0..PREPARED {
            self.prepare(&mut list.list)?;
        }
        self.lists_in(&mut list.list, 1)?;
        self.mark_in(&mut list)?;
        for _ in 0..2 {
            self.lists_in(&mut list.list, 2)?;
            self.prepare(&mut list.list)?;
            self.lists_in(&mut list.list, 1)?;
            self.return_in(&mut list, 0)?;
        }
        self.end(&list.list);
        Ok(())
    }

    // A list on a region that is no graph.
    fn listed_on_no_graph(&mut self) -> Outcome {
        let mut region = self.source.no_graph();
        let guards = self.source.any_list(&readable(&region));
        self.comparison.start(LISTS_NO_GRAPH, &region);
        self.comparison.list_on(&mut region, &guards)
    }

    // A round's lists of guards, with random numbers of their own.
    pub fn lists(&mut self) -> Outcome {
        std::mem::swap(&mut self.source, &mut self.lists);
        let compared = self.each_listed();
        std::mem::swap(&mut self.source, &mut self.lists);
        compared
    }

    fn each_listed(&mut self) -> Outcome {
        self.listed()?;
        self.listed_when_full()?;
        self.listed_on_another()?;
        self.listed_between_marks()?;
        self.listed_on_no_graph()
    }
}

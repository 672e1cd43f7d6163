// Lists of guards that do not depend on the seed: every length, every two lengths of the slices, each refusal at each place, ids that
// stand by their turn, and full graphs.
use crate::call::{Answer, Call};
use crate::classes::{Outcome, Rounds};
use crate::edges::{constant, effect, input};
use crate::examples::binary;
use crate::guard_list::{GUARDS, GuardList};
use crate::lists::take;
use crate::native::{Graph, ScalarType};
use crate::original::apply;
use crate::words::{LIMIT, REGION, encode};
use ScalarType::{Bits, Bool, Integer};

pub const LISTS_EDGES: &str = "listed, edges";

const LESS_UNSIGNED: u64 = 32;

// Lengths past the most guards whose words are there, and those whose first words alone are.
const LONG: [usize; 7] = [33, 34, 64, 65, 288, 4096, 65536];
const TOLD: [usize; 5] = [65537, 1 << 32, 1 << 61, 1 << 63, usize::MAX];

// The nodes with guards: a constant, and more inputs than a list has guards, each with a comparison.
const GUARDED: usize = 1 + 2 * (GUARDS + 1);

// Up to so many nodes the library keeps their aliases in a smaller place.
const FEW: usize = 128;

// Ids of no Bool, and of no node that a list can add.
const WRONG: [u64; 6] = [0, 1, 400, 512, 1 << 32, u64::MAX];

const PAST_ONE: [u64; 6] = [2, 3, 255, 1 << 32, 1 << 63, u64::MAX];

// The original's graph, and guards that narrow one node each.
struct Guarded {
    graph: Graph,
    guards: Vec<(u64, u64)>,
}

fn id(graph: &mut Graph, call: &Call) -> u64 {
    match apply(graph, call) {
        Answer::Id(id) => id,
        other => panic!("{call:?} answers {other:?}"),
    }
}

impl Guarded {
    // So many nodes: leaves, and last a constant and more inputs than a list has guards, each below the constant.
    fn of(nodes: usize) -> Self {
        let mut graph = Graph::default();
        for number in 0..nodes - GUARDED {
            id(&mut graph, &effect(number as u64, Integer));
        }
        let limit = id(&mut graph, &constant(Bits(8), 5));
        let condition = |number| {
            let value = id(&mut graph, &input(number, Bits(8), None));
            (
                id(&mut graph, &binary(Bool, LESS_UNSIGNED, value, limit)),
                1,
            )
        };
        let guards = (0..=GUARDS as u64).map(condition).collect();
        assert_eq!(graph.scalars.len(), nodes);
        Guarded { graph, guards }
    }

    // So many of the guards, again from the first where there are no more.
    fn list(&self, length: usize) -> GuardList {
        let guards: Vec<_> = self.guards.iter().copied().cycle().take(length).collect();
        GuardList::of(&guards)
    }

    // The guards of a list are assumed.
    fn knowing(mut self, list: &GuardList) -> Self {
        assert_eq!(take(&mut self.graph, list).answer, Answer::Done);
        self
    }

    // They were, and a retain of every node has dropped their aliases.
    fn again(self, list: &GuardList) -> Self {
        let mut guarded = self.knowing(list);
        let nodes = guarded.graph.scalars.len();
        guarded.graph.retain(&vec![true; nodes]);
        guarded
    }

    fn lengths(&self) -> Vec<GuardList> {
        let there = (0..=GUARDS + 2).chain(LONG).map(|length| self.list(length));
        let told = TOLD.into_iter().flat_map(|long| {
            [[long, long], [long, 2], [2, long]].map(|lengths| GuardList {
                told: Some(lengths),
                ..self.list(2)
            })
        });
        there.chain(told).collect()
    }

    // Every two lengths of the slices.
    fn two_lengths(&self) -> Vec<GuardList> {
        let lengths = 0..=GUARDS + 2;
        let pairs = lengths
            .clone()
            .flat_map(|first| lengths.clone().map(move |second| [first, second]));
        let list = |[conditions, answers]: [usize; 2]| {
            let [conditions, answers] = [self.list(conditions), self.list(answers)];
            GuardList::new(conditions.conditions, answers.answers)
        };
        pairs.map(list).collect()
    }

    // At each place of lists of some lengths an answer past 1, some of them with a guard that would be refused too.
    fn past_one(&self) -> Vec<GuardList> {
        let places = [1, 2, 3, GUARDS - 1, GUARDS]
            .into_iter()
            .flat_map(|length| (0..length).map(move |place| (length, place)));
        let lists = places.flat_map(|(length, place)| {
            let answers = PAST_ONE.into_iter().zip(WRONG);
            answers.flat_map(move |(answer, wrong)| {
                let mut list = self.list(length);
                list.answers[place] = answer;
                let mut other = list.clone();
                other.conditions[0] = wrong;
                [list, other]
            })
        });
        lists.collect()
    }

    // A wrong condition at each place of lists of every length.
    fn wrong(&self) -> Vec<GuardList> {
        let places = (1..=GUARDS).flat_map(|length| (0..length).map(move |place| (length, place)));
        let lists = places.flat_map(|(length, place)| {
            WRONG.map(|wrong| {
                let mut list = self.list(length);
                list.conditions[place] = wrong;
                list
            })
        });
        lists.collect()
    }

    // After so many guards, each of which adds a node, ids from the number of nodes on.
    fn by_their_turn(&self) -> Vec<GuardList> {
        let count = self.graph.scalars.len() as u64;
        let all = [0, 1, 2, 5, GUARDS - 1].into_iter().flat_map(|guards| {
            (0..guards as u64 + 2).map(move |more| {
                let mut list = self.list(guards + 1);
                list.conditions[guards] = count + more;
                list
            })
        });
        all.collect()
    }
}

impl Rounds {
    // Each list on a copy of the graph.
    fn lists_on_graph(&mut self, graph: &Graph, lists: &[GuardList]) -> Outcome {
        let mut region = vec![0; REGION];
        encode(graph, &mut region);
        self.comparison.start(LISTS_EDGES, &region);
        for list in lists {
            let mut copy = region.clone();
            self.comparison
                .list_in(&mut copy, &mut graph.clone(), list)?;
            self.comparison.place(&region);
        }
        Ok(())
    }

    // Each list on a copy of a region that is no graph.
    fn lists_on_no_graph(&mut self, region: &[u64], lists: &[GuardList]) -> Outcome {
        self.comparison.start(LISTS_EDGES, region);
        for list in lists {
            self.comparison.list_on(&mut region.to_vec(), list)?;
        }
        Ok(())
    }

    // With each room that a list can meet, lists of every length on nodes that are new, and on nodes that stand there but for the
    // last.
    fn lists_with_room(&mut self) -> Outcome {
        for room in 0..=GUARDS {
            let full = Guarded::of(LIMIT - room);
            let lists: Vec<GuardList> = (0..=GUARDS).map(|length| full.list(length)).collect();
            self.lists_on_graph(&full.graph, &lists)?;
            let full = full.again(&lists[room]);
            self.lists_on_graph(&full.graph, &lists)?;
        }
        Ok(())
    }

    // What does not depend on the seed.
    pub fn list_edges(&mut self) -> Outcome {
        self.comparison.is_twin = false;
        let guarded = Guarded::of(GUARDED);
        let all = [
            guarded.lengths(),
            guarded.two_lengths(),
            guarded.past_one(),
            guarded.wrong(),
            guarded.by_their_turn(),
        ];
        let all = all.concat();
        let knowing = Guarded::of(GUARDED).knowing(&guarded.list(GUARDS));
        for graph in [&guarded.graph, &knowing.graph, &Graph::default()] {
            self.lists_on_graph(graph, &all)?;
        }
        let mut region = vec![0; REGION];
        encode(&guarded.graph, &mut region);
        region[REGION - 1] = 1;
        self.lists_on_no_graph(&region, &all)?;
        self.lists_on_no_graph(&region[..REGION - 1], &all)?;
        for nodes in FEW - 2..=FEW + 2 {
            let guarded = Guarded::of(nodes);
            let lists = [guarded.wrong(), guarded.by_their_turn()].concat();
            self.lists_on_graph(&guarded.graph, &lists)?;
        }
        self.lists_with_room()
    }
}

// Regions for guards that no calls could have grown: comparisons, sums with constants, Refines and BoolNots of any
// types and ranges, with aliases anywhere.
use crate::call::{Answer, Call};
use crate::edges::region_of;
use crate::examples::{node, scalar};
use crate::generate::{PATTERNS, Source, Spread};
use crate::guards::is_comparison;
use crate::meter::{self, Kind};
use crate::native::{Binary, Graph, Operation, Range, Scalar, ScalarType, Unary, opened};
use crate::operators;
use crate::original::apply;
use crate::words::{LIMIT, REGION, encode, graph_of, readable};
use ScalarType::{Bool, Integer};

// Where the comparisons stand among the operators.
const COMPARED: std::ops::Range<usize> = 9..15;

impl Source {
    // A node below this one for which it holds, if one is found soon, or any.
    fn below_node(&mut self, scalars: &[Scalar], fits: impl Fn(&Scalar) -> bool) -> usize {
        for _ in 0..6 {
            let id = self.random.below(scalars.len());
            if fits(&scalars[id]) {
                return id;
            }
        }
        self.random.below(scalars.len())
    }

    // A range of the type, mostly.
    fn any_range(&mut self, ty: ScalarType) -> Option<Range> {
        let range = self.inside(ty);
        (!self.random.once_in(6)).then_some(range)
    }

    fn guard_leaf(&mut self) -> Operation {
        match self.random.below(6) {
            0 | 1 => Operation::Input(self.number(Spread::Few) as usize),
            2 => Operation::Constant(self.random.pick(&PATTERNS)),
            3 => Operation::Constant((self.random.below(20) as u128).wrapping_neg()),
            _ => Operation::Constant(self.random.below(12) as u128),
        }
    }

    // A sum with a constant, mostly.
    fn guard_sum(&mut self, scalars: &[Scalar], ty: ScalarType) -> Operation {
        let left = self.below_node(scalars, |scalar| scalar.ty == ty);
        let right = self.below_node(scalars, |scalar| {
            matches!(scalar.operation, Operation::Constant(_))
        });
        let op = match self.random.below(6) {
            0 => self.random.pick(&operators::BINARY),
            1 | 2 => Binary::Sub,
            _ => Binary::Add,
        };
        Operation::Binary(op, left, right)
    }

    // A comparison, now and then of a node with itself, or a BoolNot.
    fn guard_condition(&mut self, scalars: &[Scalar], ty: ScalarType) -> Operation {
        if self.random.once_in(3) {
            // Behind a BoolNot a comparison may have any type.
            let id = if self.random.once_in(3) {
                self.below_node(scalars, is_comparison)
            } else {
                self.below_node(scalars, |scalar| scalar.ty == Bool)
            };
            return Operation::Unary(Unary::BoolNot, id);
        }
        let left = self.below_node(scalars, |scalar| scalar.ty == ty);
        let right = match self.random.below(6) {
            0 => left,
            _ => self.below_node(scalars, |scalar| scalar.ty == ty),
        };
        Operation::Binary(self.random.pick(&operators::BINARY[COMPARED]), left, right)
    }

    // A node whose type is mostly the one that most nodes have, or Bool for a condition.
    fn guard_scalar(&mut self, scalars: &[Scalar], main: ScalarType) -> Scalar {
        let kind = if scalars.len() < 3 {
            0
        } else {
            self.random.below(12)
        };
        let operation = match kind {
            0..3 => self.guard_leaf(),
            3..6 => self.guard_sum(scalars, main),
            6 | 7 => Operation::Refine(self.below_node(scalars, |scalar| scalar.ty == main)),
            _ => self.guard_condition(scalars, main),
        };
        let ty = match kind {
            _ if self.random.once_in(8) => self.known_type(),
            8.. => Bool,
            _ => main,
        };
        Scalar {
            ty,
            range: self.any_range(ty),
            operation,
        }
    }

    // Nodes of which some have an alias, mostly of their own type.
    fn guard_nodes(&mut self) -> Vec<(Scalar, Option<usize>)> {
        let main = match self.random.below(8) {
            0 | 1 => self.known_type(),
            2 | 3 => Integer,
            4 => ScalarType::Bits(128),
            _ => ScalarType::Bits(self.width()),
        };
        let mut scalars = vec![];
        for _ in 0..6 + self.random.below(16) {
            let scalar = self.guard_scalar(&scalars, main);
            scalars.push(scalar);
        }
        let count = scalars.len();
        let aliases: Vec<_> = (0..count)
            .map(|id| {
                let above = count - id - 1;
                if above == 0 || !self.random.once_in(4) {
                    return None;
                }
                let pick = |source: &mut Source| id + 1 + source.random.below(above);
                let [first, second] = [pick(self), pick(self)];
                let is_same = scalars[first].ty == scalars[id].ty;
                Some(if is_same { first } else { second })
            })
            .collect();
        scalars.into_iter().zip(aliases).collect()
    }

    // A sum whose base leads back to it: each narrowing of the one narrows the other again, up to the end of the range
    // or of the room.
    fn spiral(&mut self) -> Vec<(Scalar, Option<usize>)> {
        let ty = self.random.pick(&[Integer, Integer, ScalarType::Bits(16)]);
        let top = self.random.pick(&[9, 60, 480, 700]);
        let by = 1 + self.random.below(3) as i128;
        let limit = top - 1 - self.random.below(3) as i128;
        let op = self.random.pick(&[Binary::Add, Binary::Sub]);
        let compared = Operation::Binary(self.random.pick(&operators::BINARY[COMPARED]), 3, 1);
        vec![
            node(ty, (by, by), Operation::Constant(by as u128)),
            node(ty, (limit, limit), Operation::Constant(limit as u128)),
            (scalar(ty, (0, top), Operation::Input(0)), Some(4)),
            node(ty, (0, top), Operation::Binary(op, 2, 0)),
            node(ty, (0, top), Operation::Refine(3)),
            node(Bool, (0, 1), compared),
        ]
    }

    // A sum at an end of the Integers: the way back to what it is a sum of is past that end.
    fn overflown(&mut self) -> Vec<(Scalar, Option<usize>)> {
        let low = |source: &mut Source| i128::MIN + source.random.below(20) as i128;
        let high = |source: &mut Source| i128::MAX - source.random.below(20) as i128;
        let is_low = self.random.once_in(2);
        let pick = if is_low { low } else { high };
        let [a, b, limit] = [pick(self), pick(self), pick(self)];
        let by = 1 + self.random.below(24) as i128;
        // The way back from a low sum is mostly down, and from a high one up.
        let is_sum = is_low ^ self.random.once_in(3);
        let op = if is_sum { Binary::Add } else { Binary::Sub };
        let compared = Operation::Binary(self.random.pick(&operators::BINARY[COMPARED]), 2, 3);
        vec![
            node(Integer, (by, by), Operation::Constant(by as u128)),
            node(Integer, (i128::MIN, i128::MAX), Operation::Input(0)),
            node(Integer, (a.min(b), a.max(b)), Operation::Binary(op, 1, 0)),
            node(Integer, (limit, limit), Operation::Constant(limit as u128)),
            node(Bool, (0, 1), compared),
        ]
    }

    // The region after a guard, without the aliases that it has set: its nodes are found again. One of them stands
    // there twice, if there is room.
    fn echoed(&mut self, region: Vec<u64>) -> Vec<u64> {
        let conditions = self.conditions(&readable(&region));
        let Some(mut graph) = graph_of(&region) else {
            return region;
        };
        let count = graph.scalars.len();
        meter::count_as(Kind::Fixed);
        for condition in conditions {
            let call = Call::AssumeGuard {
                condition,
                expected: self.random.next() % 2,
            };
            self.remember(&call);
            apply(&mut graph, &call);
            opened::put_back(&mut graph, usize::MAX, &meter::aliased());
        }
        if let Some(last) = graph.scalars.get(count..).and_then(<[Scalar]>::last) {
            let last = last.clone();
            graph.scalars.push(last);
        }
        graph.scalars.truncate(LIMIT);
        let mut region = vec![0; REGION];
        encode(&graph, &mut region);
        region
    }

    // A region that passes question 1 and that no calls could have grown, with much for guards to narrow, and now and
    // then with little room.
    pub fn guard_region(&mut self) -> Vec<u64> {
        self.start();
        self.guarding = 2;
        let nodes = match self.random.below(16) {
            0 | 1 => self.spiral(),
            2 => self.overflown(),
            _ => self.guard_nodes(),
        };
        let region = self.guard_region_of(nodes);
        if self.random.once_in(3) {
            return self.echoed(region);
        }
        region
    }

    fn guard_region_of(&mut self, mut nodes: Vec<(Scalar, Option<usize>)>) -> Vec<u64> {
        nodes.push((self.wrong_constant(), None));
        if self.random.once_in(6) {
            let room = self.random.below(6);
            for number in nodes.len()..LIMIT - room {
                let scalar = Scalar {
                    ty: Integer,
                    range: None,
                    operation: Operation::Effect(number),
                };
                nodes.push((scalar, None));
            }
        }
        region_of(&nodes)
    }

    // The conditions of a region, some of those that it has.
    pub fn conditions(&mut self, scalars: &[Scalar]) -> Vec<u64> {
        let bools = (0..scalars.len()).filter(|id| scalars[*id].ty == Bool);
        let mut all: Vec<u64> = bools.map(|id| id as u64).collect();
        while all.len() > 4 {
            all.swap_remove(self.random.below(all.len()));
        }
        all
    }

    // A graph that calls have grown, with room for a few nodes more, and with guards in mind that were not assumed.
    pub fn guarded_full_graph(&mut self) -> Graph {
        let mut graph = self.grown_graph();
        self.assumed.clear();
        for _ in 0..4 {
            self.begin_guards(&graph.scalars);
            while let Some(call) = self.plan.next() {
                self.remember(&call);
                let answer = match call {
                    Call::AssumeGuard { .. } => Answer::Done,
                    _ => apply(&mut graph, &call),
                };
                self.hear(answer);
            }
        }
        let room = self.random.below(6);
        for number in graph.scalars.len()..LIMIT - room {
            graph.effect(1000 + number, Integer);
        }
        graph
    }
}

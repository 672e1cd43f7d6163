// Named examples of the builders at their limits. Each one is run on the original as it is made, and must answer so.
use crate::call::{Answer, Call};
use crate::edges::{Step, assume, constant, effect, input, region_of};
use crate::meter;
use crate::native::{Binary, Graph, Operation, Range, Scalar, ScalarType};
use crate::original::apply;
use crate::plans::{ADD, OR, XOR};
use crate::words::{LIMIT, REGION, graph_of};
use ScalarType::{Bits, Bool, Integer};

// A list of calls, and the graph that it leads to.
pub struct Example {
    pub steps: Vec<Step>,
    pub graph: Graph,
}

pub fn binary(ty: ScalarType, op: u64, left: u64, right: u64) -> Call {
    let ty = ty.into();
    Call::Binary {
        ty,
        op,
        left,
        right,
    }
}

fn slice(id: u64, width: u64) -> Call {
    Call::Slice {
        id,
        offset: 0,
        width,
    }
}

impl Example {
    pub fn on(region: Vec<u64>) -> Self {
        let graph = graph_of(&region).expect("an example's region is a graph");
        Example {
            steps: vec![Step::Region(region)],
            graph,
        }
    }

    pub fn new() -> Self {
        Example::on(vec![0; REGION])
    }

    pub fn put(&mut self, call: Call) -> Answer {
        self.steps.push(Step::Call(REGION, call));
        apply(&mut self.graph, &call)
    }

    pub fn id(&mut self, call: Call) -> u64 {
        match self.put(call) {
            Answer::Id(id) => id,
            other => panic!("{call:?} answers {other:?}"),
        }
    }

    // The answer must be this one, and the call must have used so many units.
    pub fn expect(&mut self, call: Call, answer: Answer, units: u64) {
        assert_eq!(self.put(call), answer, "{call:?}");
        assert_eq!(meter::units(), units, "the units of {call:?}");
    }

    // Adds leaves up to this count.
    pub fn fill(&mut self, count: usize) {
        for number in self.graph.scalars.len()..count {
            self.id(effect(1000 + number as u64, Integer));
        }
    }

    // A value of Bits(16), doubled so often.
    fn doubled(&mut self, times: usize) -> u64 {
        let mut value = self.id(effect(0, Bits(16)));
        for _ in 0..times {
            value = self.id(binary(Bits(16), ADD, value, value));
        }
        value
    }

    // Sums of nodes of the list, by their places in it. The last sum.
    fn sums(&mut self, leaves: [Call; 2], sums: &[(usize, usize)]) -> u64 {
        let mut ids: Vec<u64> = leaves.map(|leaf| self.id(leaf)).into();
        for (left, right) in sums {
            let id = self.id(binary(Bits(16), ADD, ids[*left], ids[*right]));
            ids.push(id);
        }
        *ids.last().expect("there are leaves")
    }
}

// A value that fits 8 bits costs a unit more than another, when it is truncated to them, and a constant one less.
fn small() -> Call {
    input(1, Bits(16), Some((0, 3)))
}

// A slice that uses all of its 1,024 units. 13 calls.
fn all_units() -> Example {
    let mut example = Example::new();
    let leaves = [effect(0, Bits(16)), small()];
    let sums = [
        (1, 0),
        (2, 2),
        (3, 3),
        (4, 4),
        (5, 5),
        (6, 4),
        (7, 0),
        (8, 6),
        (9, 9),
        (10, 8),
    ];
    let last = example.sums(leaves, &sums);
    example.expect(slice(last, 8), Answer::Id(23), 1024);
    example
}

// A slice that would use 1,025 units, and is refused 8 at the last entry. 12 calls.
fn one_unit_more() -> Example {
    let mut example = Example::new();
    let leaves = [constant(Bits(16), 3), small()];
    let sums = [
        (1, 1),
        (2, 0),
        (3, 3),
        (4, 4),
        (5, 5),
        (6, 6),
        (7, 7),
        (8, 8),
        (9, 0),
    ];
    let last = example.sums(leaves, &sums);
    example.expect(slice(last, 8), Answer::Refused(8), 1025);
    example
}

// Seven doublings are reduced with 5·2^7 - 3 units; eight, in 10 calls, are too many. Truncate costs the same.
fn doublings() -> Example {
    let mut example = Example::new();
    let seven = example.doubled(7);
    let eight = example.id(binary(Bits(16), ADD, seven, seven));
    example.expect(slice(eight, 8), Answer::Refused(8), 1025);
    let truncate = |id| Call::Unary {
        ty: Bits(8).into(),
        op: 13,
        parameter: 8,
        id,
    };
    example.expect(truncate(eight), Answer::Refused(8), 1025);
    example.expect(truncate(seven), Answer::Id(16), 637);
    example.expect(slice(seven, 8), Answer::Id(16), 637);
    example
}

// With room for one node, the first node of a call is stored, the second refused 7, and the first taken back. The call
// that stores the first alone passes then. 512 calls with the refusal.
fn full_in_the_middle() -> Example {
    let mut example = Example::new();
    let id = example.id(effect(0, Bits(8)));
    example.fill(LIMIT - 1);
    let range = Call::UnsignedRange {
        id,
        low: 1,
        high: 5,
    };
    example.expect(range, Answer::Refused(7), 1);
    assert_eq!(example.graph.scalars.len(), LIMIT - 1);
    example.id(constant(Bits(8), 1));
    example
}

// The reduction of eight doublings stores eight nodes before its 1,025th entry, and would store a ninth after it. With
// room for eight it is refused 8 before 7, with room for seven 7 before 8. 505 calls with the first refusal, 507 with
// the second.
fn both_limits() -> Example {
    let mut example = Example::new();
    let value = example.doubled(8);
    example.fill(LIMIT - 8);
    example.expect(slice(value, 8), Answer::Refused(8), 1025);
    example.fill(LIMIT - 7);
    assert_eq!(example.put(slice(value, 8)), Answer::Refused(7));
    assert!(meter::units() < 1025);
    example.fill(LIMIT);
    assert_eq!(example.put(slice(value, 8)), Answer::Refused(7));
    example
}

pub fn scalar(ty: ScalarType, (min, max): (i128, i128), operation: Operation) -> Scalar {
    Scalar {
        ty,
        range: Some(Range { min, max }),
        operation,
    }
}

// A node without an alias.
pub fn node(ty: ScalarType, range: (i128, i128), operation: Operation) -> (Scalar, Option<usize>) {
    (scalar(ty, range, operation), None)
}

// A None that keeps a node: the range of a sum has room for one constant more, so that the sum of the two constants is
// stored, but there is no sum of all three. No calls could have stored that range. A region of 2 nodes.
fn none_keeps_node() -> Example {
    let value = (1 << 126) - 1;
    let constant = Operation::Constant(value as u128);
    let sum = Operation::Binary(Binary::Add, 0, 0);
    let mut example = Example::on(region_of(&[
        (scalar(Integer, (value, value), constant), None),
        (scalar(Integer, (0, 0), sum), None),
    ]));
    assert_eq!(example.put(binary(Integer, ADD, 1, 0)), Answer::None);
    assert_eq!(example.graph.scalars.len(), 3);
    example
}

// The low half of a value under constants, joined to the high half again. Under 62 constants its bits are looked up and
// the concat is folded; under 63 the value itself is too deep by one step. 70 calls with that concat.
fn deep_bits() -> Example {
    let mut example = Example::new();
    let half = Bits(8);
    let value = example.id(effect(0, Bits(16)));
    let mut low = example.id(slice(value, 8));
    let high = example.id(Call::Slice {
        id: value,
        offset: 8,
        width: 8,
    });
    let constants = [6, 2, 4].map(|value| example.id(constant(half, value)));
    // Or makes two bits known, and then Xor changes one of them, and Or the other.
    low = example.id(binary(half, OR, low, constants[0]));
    for count in 2..66 {
        let place = count % 2;
        low = example.id(binary(half, [XOR, OR][place], low, constants[1 + place]));
        if count < 60 {
            continue;
        }
        let id = example.id(Call::Concat {
            high,
            low,
            low_width: 8,
            width: 16,
        });
        let operation = &example.graph.scalars[id as usize].operation;
        let is_concat = matches!(operation, Operation::Concat { .. });
        assert_eq!(is_concat, count > 62);
    }
    example
}

// The list that document 01 shows.
fn shown() -> Example {
    let mut example = Example::new();
    let ty = Bits(8);
    let x = example.id(input(0, ty, None));
    let five = example.id(constant(ty, 5));
    let sum = example.id(binary(ty, ADD, x, five));
    let seven = example.id(constant(ty, 7));
    example.expect(binary(Bool, 29, sum, seven), Answer::Id(5), 2);
    example.expect(assume(5, 1), Answer::Done, 0);
    example.expect(binary(ty, ADD, x, five), Answer::Id(7), 1);
    example.expect(binary(Bool, 29, 7, seven), Answer::Id(8), 2);
    assert_eq!(example.graph.scalars.len(), 9);
    example
}

pub fn steps() -> Vec<Step> {
    let examples = [
        shown(),
        all_units(),
        one_unit_more(),
        doublings(),
        full_in_the_middle(),
        both_limits(),
        none_keeps_node(),
        deep_bits(),
    ];
    examples
        .into_iter()
        .flat_map(|example| example.steps)
        .collect()
}

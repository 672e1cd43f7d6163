// The edges that document 01 names, as a list of calls.
use crate::call::{Call, GUARD_WORDS};
use crate::examples;
use crate::guard_examples;
use crate::native::{Operation, Range, Scalar, ScalarType};
use crate::questions;
use crate::words::{LIMIT, REGION, WORDS, node_words, start_of};
use ScalarType::{Bits, Bool, Integer};

pub enum Step {
    // The words are these from here on, and 0 past them.
    Region(Vec<u64>),
    // A call on so many of the words.
    Call(usize, Call),
    // Four words are looked at.
    Look(usize),
    // A retain on the region, with such a keep list.
    Retain(Vec<u8>),
}

struct Steps(Vec<Step>);

pub fn constant(ty: ScalarType, value: u128) -> Call {
    let ty = ty.into();
    Call::Constant { ty, value }
}

pub fn input(number: u64, ty: ScalarType, range: Option<(i128, i128)>) -> Call {
    Call::Input {
        number,
        ty: ty.into(),
        range: range.map(|(min, max)| Range { min, max }),
    }
}

pub fn effect(number: u64, ty: ScalarType) -> Call {
    let ty = ty.into();
    Call::Effect { number, ty }
}

pub fn assume(condition: u64, expected: u64) -> Call {
    Call::AssumeGuard {
        condition,
        expected,
    }
}

pub fn guard(condition: u64, expected: u64) -> Call {
    Call::Guard {
        condition,
        expected,
        room: GUARD_WORDS,
    }
}

fn literal(id: u64) -> Call {
    Call::Literal { id, room: 2 }
}

fn resolve(id: u64) -> Call {
    Call::Resolve { id }
}

// A region of these nodes with their aliases.
pub fn region_of(nodes: &[(Scalar, Option<usize>)]) -> Vec<u64> {
    let mut region = vec![0; REGION];
    region[0] = nodes.len() as u64;
    for (id, (scalar, alias)) in nodes.iter().enumerate() {
        region[start_of(id)..][..WORDS].copy_from_slice(&node_words(scalar, *alias));
    }
    region
}

// A region of nodes without ranges.
fn plain_region(nodes: &[(ScalarType, Operation, Option<usize>)]) -> Vec<u64> {
    let nodes: Vec<_> = nodes
        .iter()
        .map(|(ty, operation, alias)| {
            let scalar = Scalar {
                ty: *ty,
                range: None,
                operation: operation.clone(),
            };
            (scalar, *alias)
        })
        .collect();
    region_of(&nodes)
}

impl Steps {
    fn empty(&mut self) {
        self.0.push(Step::Region(vec![0; REGION]));
    }

    fn call(&mut self, call: Call) {
        self.0.push(Step::Call(REGION, call));
    }

    fn calls(&mut self, calls: &[Call]) {
        for call in calls {
            self.call(*call);
        }
    }

    // The words of a node.
    fn look(&mut self, id: usize) {
        for part in 0..3 {
            self.0.push(Step::Look(start_of(id) + 4 * part));
        }
    }

    // 2^127 in Bits(128) has no range, 2^127 - 1 has.
    fn constants(&mut self) {
        self.empty();
        self.call(constant(Bits(128), 1 << 127));
        self.look(0);
        self.call(constant(Bits(128), (1 << 127) - 1));
        self.look(1);
        for ty in [Integer, Bits(127), Bits(128), Bits(64), Bits(1), Bits(0)] {
            for value in [0, 1, 1 << 64, (1 << 127) - 1, 1 << 127, u128::MAX] {
                self.call(constant(ty, value));
            }
        }
        // The value is reduced before the search.
        self.calls(&[constant(Bits(8), 5), constant(Bits(8), 256 + 5)]);
        for value in [0, 1, 2, 1 << 64, (1 << 64) + 1, 1 << 127, u128::MAX] {
            self.call(constant(Bool, value));
        }
    }

    // 128 passes, 129 is refused 2.
    fn widths(&mut self) {
        self.empty();
        for width in [0, 1, 7, 8, 63, 64, 65, 127, 128, 129, 255, 65535] {
            let ty = Bits(width);
            self.calls(&[constant(ty, 3), input(0, ty, None), effect(0, ty)]);
            // Question 2 comes before question 5.
            self.call(input(0, ty, Some((1, 0))));
        }
    }

    fn ranges(&mut self) {
        self.empty();
        for (ty, top) in [
            (Bool, 1),
            (Bits(0), 0),
            (Bits(1), 1),
            (Bits(8), 255),
            (Bits(63), (1 << 63) - 1),
            (Bits(64), (1 << 64) - 1),
            (Bits(65), (1 << 65) - 1),
            (Bits(126), (1 << 126) - 1),
            (Bits(127), i128::MAX),
            (Bits(128), i128::MAX),
            (Integer, i128::MAX),
        ] {
            self.call(input(0, ty, None));
            for (min, max) in [
                (0, top),
                (top, top),
                (0, top.saturating_add(1)),
                (-1, top),
                (-1, -1),
                (top, 0),
                (1, 0),
                (0, -1),
                (i128::MIN, i128::MAX),
                (i128::MAX, i128::MIN),
                (-1 << 64, 0),
            ] {
                self.call(input(0, ty, Some((min, max))));
            }
        }
    }

    // An input and an effect of one number are two nodes, and so are two types.
    fn interning(&mut self) {
        self.empty();
        for ty in [Bool, Integer, Bits(1), Bits(8)] {
            for number in [0, 1, u64::MAX] {
                self.calls(&[input(number, ty, None), effect(number, ty)]);
                self.calls(&[input(number, ty, Some((0, 1))), constant(ty, 1)]);
            }
        }
        let count = 4 * 3 * 3 + 4;
        for id in [0, 1, 2, 3, count - 1, count, 511, 512, 1 << 32, u64::MAX] {
            self.calls(&[literal(id), resolve(id)]);
        }
    }

    // A 512th node is taken, a 513th refused 7. Old nodes are still found, and questions 1 to 5 come first.
    fn limit(&mut self) {
        self.empty();
        let limit = LIMIT as u64;
        for number in 0..limit - 1 {
            self.call(effect(number, Integer));
        }
        self.calls(&[effect(limit - 1, Integer), effect(limit, Integer)]);
        self.calls(&[constant(Bits(8), 1), input(0, Bool, None)]);
        self.calls(&[effect(limit - 1, Integer), effect(0, Integer)]);
        self.calls(&[constant(Bits(129), 1), constant(Bool, 2)]);
        self.calls(&[input(0, Bits(8), Some((0, 256))), Call::IsGraph]);
        self.calls(&[resolve(limit - 1), resolve(limit), literal(limit)]);
    }

    // The region one word short, one word long, and shorter.
    fn lengths(&mut self) {
        self.empty();
        self.call(constant(Bits(8), 5));
        for len in [REGION - 1, REGION + 1, 13, 1, 0, REGION] {
            for call in [
                Call::IsGraph,
                constant(Bits(8), 5),
                constant(Bits(8), 6),
                input(0, Bits(129), None),
                effect(0, Bool),
                literal(0),
                resolve(9),
                assume(0, 1),
                assume(9, 0),
                guard(0, 0),
                guard(9, 1),
            ] {
                self.0.push(Step::Call(len, call));
            }
        }
    }

    // Regions that no calls could have grown.
    fn others(&mut self) {
        let five = Operation::Constant(5);
        self.0.push(Step::Region(plain_region(&[
            (Bool, five.clone(), None),
            (Bits(8), Operation::Constant(300), None),
        ])));
        self.calls(&[Call::IsGraph, literal(0), literal(1)]);
        self.calls(&[constant(Bits(8), 300), constant(Bool, 1)]);
        // The lowest of equal nodes is found, and its alias followed.
        let input = |number| Operation::Input(number);
        self.0.push(Step::Region(plain_region(&[
            (Integer, input(7), Some(2)),
            (Integer, input(7), None),
            (Bits(8), five.clone(), Some(3)),
            (Bool, Operation::Refine(0), None),
            (Integer, input(8), None),
            (Integer, input(8), Some(6)),
            (Integer, input(9), None),
        ])));
        for number in [7, 8, 9, 10] {
            self.call(self::input(number, Integer, None));
        }
        for id in 0..9 {
            self.calls(&[resolve(id), literal(id)]);
        }
    }

    // The limits of an operation's code and fields in node 2 of 4, just met and just passed.
    fn operations(&mut self) {
        let mut fields = vec![];
        for code in (0..45).chain([1 << 32, u64::MAX]) {
            fields.extend([[code, 0, 0, 0], [code, 1, 0, 0], [code, 0, 1, 0]]);
            fields.extend([[code, 2, 0, 0], [code, 0, 2, 0], [code, 0, 0, 1]]);
            fields.extend([[code, 1, 1, 128], [code, 1, 1, 129]]);
        }
        for y in [127, 128, 1 << 16] {
            fields.push([4, 1, y, 128]);
        }
        for width in [128, 129, 1 << 16] {
            fields.push([4, 1, 127, width]);
            fields.push([13, 1, 0, width]);
        }
        let mut region = plain_region(&[const { (Bool, Operation::Constant(0), None) }; 4]);
        for words in fields {
            region[start_of(2) + 7..][..4].copy_from_slice(&words);
            self.0.push(Step::Region(region.clone()));
            self.call(Call::IsGraph);
        }
    }

    // Each kind of word changed in turn. Question 1 comes before all others.
    fn damages(&mut self) {
        let good = plain_region(&[
            (Bits(8), Operation::Constant(5), None),
            (Bits(8), Operation::Input(0), Some(2)),
            (Bits(8), Operation::Refine(1), None),
        ]);
        for at in (0..start_of(4)).chain([REGION - 1]) {
            for word in [1, 2, 3, 4, 129, 512, 513, 1 << 63, u64::MAX] {
                let mut region = good.clone();
                region[at] = word;
                self.0.push(Step::Region(region));
                self.call(Call::IsGraph);
            }
            self.calls(&[constant(Bits(129), 5), effect(0, Bool), resolve(9)]);
            self.calls(&[assume(9, 1), guard(9, 0)]);
        }
    }
}

pub fn steps() -> Vec<Step> {
    let mut steps = Steps(vec![]);
    steps.constants();
    steps.widths();
    steps.ranges();
    steps.interning();
    steps.limit();
    steps.lengths();
    steps.others();
    steps.operations();
    steps.damages();
    steps.0.extend(questions::steps());
    steps.0.extend(examples::steps());
    steps.0.extend(guard_examples::steps());
    steps.0
}

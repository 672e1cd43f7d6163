// Named examples of guards. Each one is run on the original as it is made, and must answer so.
use crate::call::{Answer, Call};
use crate::edges::{Step, assume, constant, guard, input, region_of};
use crate::examples::{Example, binary, node, scalar};
use crate::meter;
use crate::native::{Binary, Operation, ScalarType, Unary};
use crate::plans::{ADD, EQUAL, SUB};
use crate::words::LIMIT;
use ScalarType::{Bits, Bool, Integer};

const LESS_SIGNED: u64 = 31;
const LESS_UNSIGNED: u64 = 32;

// What a guard did: the nodes that it stored, and those that it gave an alias.
#[derive(Clone, Copy, Debug, PartialEq, Eq)]
struct Did {
    stored: u64,
    aliases: u64,
}

impl Example {
    // The guard is assumed, and does this.
    fn assume(&mut self, condition: u64, expected: u64, stored: u64, aliases: u64) {
        let call = assume(condition, expected);
        assert_eq!(self.put(call), Answer::Done, "{call:?}");
        assert_eq!(did(), Did { stored, aliases }, "{call:?}");
    }

    // The guard is refused 7 after it did this, which is taken back: no node that was there has an alias from it.
    fn refuse(&mut self, condition: u64, expected: u64, stored: u64, aliases: u64) {
        let (call, count) = (assume(condition, expected), self.graph.scalars.len());
        assert_eq!(self.put(call), Answer::Refused(7), "{call:?}");
        assert_eq!(did(), Did { stored, aliases }, "{call:?}");
        assert_eq!(self.graph.scalars.len(), count);
        let old = meter::aliased().into_iter().filter(|id| *id < count);
        for id in old.map(|id| id as u64).collect::<Vec<_>>() {
            assert_eq!(self.put(Call::Resolve { id }), Answer::Id(id));
        }
    }

    // A retain that keeps every node: the aliases go.
    fn keep_all(&mut self) {
        let count = self.graph.scalars.len();
        self.graph.retain(&vec![true; count]);
        self.steps.push(Step::Retain(vec![1; count]));
    }

    // The guard of a condition is this: operator, operands, what is expected, and whether 64 bits suffice.
    fn guard(&mut self, condition: u64, expected: u64, words: [u64; 5]) {
        assert_eq!(self.put(guard(condition, expected)), Answer::Guard(words));
    }

    fn not(&mut self, id: u64) -> u64 {
        self.id(Call::Unary {
            ty: Bool.into(),
            op: 10,
            parameter: 0,
            id,
        })
    }
}

fn did() -> Did {
    Did {
        stored: meter::stored(),
        aliases: meter::aliases(),
    }
}

// A guard for which there is room for its one node passes, and one for which there is none is refused 7 before
// anything was stored. What narrows nothing passes.
fn full_at_first() -> Example {
    let mut example = Example::new();
    let [x, y] = [0, 1].map(|number| example.id(input(number, Bits(8), None)));
    let limit = example.id(constant(Bits(8), 10));
    let [first, second] = [x, y].map(|value| example.id(binary(Bool, LESS_UNSIGNED, value, limit)));
    example.fill(LIMIT - 1);
    example.assume(first, 1, 1, 1);
    example.assume(first, 1, 0, 0);
    example.refuse(second, 1, 0, 0);
    example.refuse(second, 0, 0, 0);
    // The node stands there after a retain, and its guard passes on a full graph.
    example.keep_all();
    example.refuse(second, 1, 0, 0);
    example.assume(first, 1, 0, 1);
    example
}

// x < y with both in [0, 9] would narrow both, and there is room for one: the alias of x is taken back. That x is not
// below y narrows neither.
fn full_at_second() -> Example {
    let mut example = Example::new();
    let [x, y] = [0, 1].map(|number| example.id(input(number, Integer, Some((0, 9)))));
    let is_less = example.id(binary(Bool, LESS_SIGNED, x, y));
    example.fill(LIMIT - 1);
    example.refuse(is_less, 1, 1, 1);
    example.assume(is_less, 0, 0, 0);
    example
}

// ((x + 5) - 3) + 9 < 40 narrows the four nodes of the chain. With less room it is refused 7 after so many aliases as
// there is room for.
fn full_in_chain() -> Example {
    let mut example = Example::new();
    let x = example.id(input(0, Integer, Some((0, 100))));
    let mut last = x;
    for (op, offset) in [(ADD, 5), (SUB, 3), (ADD, 9)] {
        let offset = example.id(constant(Integer, offset));
        last = example.id(binary(Integer, op, last, offset));
    }
    let limit = example.id(constant(Integer, 40));
    let is_less = example.id(binary(Bool, LESS_SIGNED, last, limit));
    for room in [3, 2, 1, 0] {
        example.fill(LIMIT - room as usize);
        example.refuse(is_less, 1, room, room);
    }
    example
}

// A retain drops the aliases and keeps the Refines: the guard finds them again, and their aliases lead to old nodes. A
// second guard narrows the first one's Refine; after the retain it narrows the value itself, by another node.
fn found_again() -> Example {
    let mut example = Example::new();
    let x = example.id(input(0, Bits(16), None));
    let five = example.id(constant(Bits(16), 5));
    let sum = example.id(binary(Bits(16), ADD, x, five));
    let limits = [1000, 400].map(|limit| example.id(constant(Bits(16), limit)));
    let [wide, small] = limits.map(|limit| example.id(binary(Bool, LESS_UNSIGNED, sum, limit)));
    // The sum may wrap: what it is of is not narrowed.
    example.assume(wide, 1, 1, 1);
    example.assume(small, 1, 1, 1);
    example.keep_all();
    example.assume(wide, 1, 0, 1);
    example.assume(small, 1, 0, 1);
    example.keep_all();
    example.assume(small, 1, 1, 1);
    example.assume(wide, 1, 0, 0);
    example.keep_all();
    // The first guard finds its own Refine again, and the other way it narrows nothing then.
    example.assume(wide, 1, 0, 1);
    example.assume(wide, 0, 0, 0);
    example
}

// Conditions that contradict what is known narrow nothing, behind BoolNots too.
fn contradicted() -> Example {
    let mut example = Example::new();
    let x = example.id(input(0, Integer, Some((0, 9))));
    let limit = example.id(constant(Integer, 5));
    let is_less = example.id(binary(Bool, LESS_SIGNED, x, limit));
    let not = example.not(is_less);
    let again = example.not(not);
    example.assume(not, 1, 1, 1);
    for (condition, expected) in [(is_less, 1), (not, 0), (again, 1), (again, 0)] {
        example.assume(condition, expected, 0, 0);
    }
    // The guard has the operands as they are stored, and BoolNots turn what is expected.
    example.guard(is_less, 1, [LESS_UNSIGNED, x, limit, 1, 1]);
    example.guard(not, 1, [LESS_UNSIGNED, x, limit, 0, 1]);
    example.guard(again, 0, [LESS_UNSIGNED, x, limit, 0, 1]);
    example
}

// At the ends of an Integer there is no number below or above. Both x and y are -2^127 and then both 2^127 - 1: that
// one is below the other, or that they differ, narrows nothing.
fn cornered() -> Example {
    let mut example = Example::new();
    for end in [i128::MIN, i128::MAX] {
        let range = Some((end.min(end ^ 1), end.max(end ^ 1)));
        let values = [0, 1].map(|number| example.id(input(number, Integer, range)));
        let end = example.id(constant(Integer, end as u128));
        let conditions = [29, 30, 31, 33].map(|op| {
            let [x, y] = values;
            [[x, y], [y, x]].map(|[left, right]| example.id(binary(Bool, op, left, right)))
        });
        let ends = values.map(|value| example.id(binary(Bool, EQUAL, value, end)));
        for is_end in ends {
            example.assume(is_end, 1, 1, 1);
        }
        for condition in conditions.into_iter().flatten().chain(ends) {
            example.assume(condition, 0, 0, 0);
            example.assume(condition, 1, 0, 0);
        }
    }
    example
}

// A sum whose base leads back to it, in a region that no calls could have grown: each narrowing of the one narrows the
// other again, by one node each, down to the end of the range. Where the range is longer than the room it is refused 7
// after an alias for each node that there is room for.
fn spiral(top: i128) -> Example {
    let one = Operation::Constant(1);
    let limit = Operation::Constant(top as u128);
    let nodes = [
        node(Integer, (1, 1), one),
        (scalar(Integer, (0, top), Operation::Input(0)), Some(3)),
        node(Integer, (0, top), Operation::Binary(Binary::Add, 1, 0)),
        node(Integer, (0, top), Operation::Refine(2)),
        node(Integer, (top, top), limit),
        node(Bool, (0, 1), Operation::Binary(Binary::LessSigned, 2, 4)),
    ];
    Example::on(region_of(&nodes))
}

fn spirals() -> Vec<Example> {
    let mut short = spiral(9);
    short.assume(5, 1, 9, 9);
    let mut long = spiral(2000);
    long.refuse(5, 1, LIMIT as u64 - 6, LIMIT as u64 - 6);
    vec![short, long]
}

// The sum is from -2^127 to 9 above it, and less than what it is a sum of by 12: the way back from what is left of it
// is past the other end, and narrows nothing. No calls could have stored that range.
fn overflown() -> Example {
    let (min, limit) = (i128::MIN, i128::MIN + 5);
    let sum = Operation::Binary(Binary::Add, 1, 0);
    let is_less = Operation::Binary(Binary::LessSigned, 2, 3);
    let nodes = [
        node(Integer, (12, 12), Operation::Constant(12)),
        node(Integer, (min, i128::MAX), Operation::Input(0)),
        node(Integer, (min, min + 9), sum),
        node(Integer, (limit, limit), Operation::Constant(limit as u128)),
        node(Bool, (0, 1), is_less),
    ];
    let mut example = Example::on(region_of(&nodes));
    example.assume(4, 1, 1, 1);
    example
}

// A sum of Bits(128) that has a range, as no calls could have stored it: what it is of is not narrowed. One of
// Bits(127) is as others.
fn widest() -> Vec<Example> {
    [(128, 1), (127, 2)]
        .map(|(width, narrowed)| {
            let ty = Bits(width);
            let sum = Operation::Binary(Binary::Sub, 1, 0);
            let is_less = Operation::Binary(Binary::LessUnsigned, 2, 0);
            let nodes = [
                node(ty, (5, 5), Operation::Constant(5)),
                node(ty, (0, 90), Operation::Input(0)),
                node(ty, (0, 90), sum),
                node(Bool, (0, 1), is_less),
            ];
            let mut example = Example::on(region_of(&nodes));
            example.assume(3, 1, narrowed, narrowed);
            example
        })
        .into()
}

// Of two nodes that the guard could find the lower one is, and its alias is followed.
fn twice() -> Example {
    let refine = || scalar(Integer, (0, 4), Operation::Refine(0));
    let is_less = Operation::Binary(Binary::LessSigned, 0, 1);
    let nodes = [
        node(Integer, (0, 9), Operation::Input(0)),
        node(Integer, (5, 5), Operation::Constant(5)),
        node(Bool, (0, 1), is_less),
        (refine(), Some(5)),
        (refine(), None),
        node(Bits(8), (3, 3), Operation::Input(1)),
    ];
    let mut example = Example::on(region_of(&nodes));
    example.assume(2, 1, 0, 1);
    assert_eq!(example.put(Call::Resolve { id: 0 }), Answer::Id(5));
    example
}

// Conditions that no calls could have stored: a Bool that is a comparison of two types, one behind BoolNots of an
// Integer, a comparison that is no Bool, a sum that is a Bool, a node with itself, and an alias of another type.
fn other_conditions() -> Example {
    let binary = |op, left, right| Operation::Binary(op, left, right);
    let not = |id| Operation::Unary(Unary::BoolNot, id);
    let bits = Bits(8);
    let truth = (0, 1);
    let nodes = [
        node(bits, (0, 200), Operation::Input(0)),
        node(Integer, (-5, 90), Operation::Input(1)),
        node(Bool, truth, binary(Binary::LessSigned, 0, 1)),
        node(Integer, (0, 1), not(2)),
        node(Bool, truth, not(3)),
        node(bits, (0, 1), binary(Binary::LessUnsigned, 0, 1)),
        node(Bool, truth, not(5)),
        node(Bool, truth, binary(Binary::Add, 0, 1)),
        node(Bool, truth, binary(Binary::LessUnsigned, 0, 0)),
        node(Bool, truth, binary(Binary::Equal, 7, 2)),
        (scalar(bits, (7, 9), Operation::Input(2)), Some(11)),
        node(Integer, (3, 50), Operation::Constant(300)),
        node(Bool, truth, binary(Binary::NotEqual, 10, 11)),
        node(Bool, truth, binary(Binary::LessEqualSigned, 11, 0)),
    ];
    let mut example = Example::on(region_of(&nodes));
    let count = nodes.len() as u64;
    for condition in 0..count {
        for expected in [1, 0, 1] {
            example.put(guard(condition, expected));
            example.put(assume(condition, expected));
        }
    }
    example
}

pub fn steps() -> Vec<Step> {
    let mut examples = vec![
        full_at_first(),
        full_at_second(),
        full_in_chain(),
        found_again(),
        contradicted(),
        cornered(),
        overflown(),
        twice(),
        other_conditions(),
    ];
    examples.extend(widest());
    examples.extend(spirals());
    examples
        .into_iter()
        .flat_map(|example| example.steps)
        .collect()
}

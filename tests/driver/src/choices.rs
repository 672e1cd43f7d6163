// Every choice of numbers about their limits, for each kind of call: on a graph with leaves and conditions, on the
// empty graph and on a region that is no graph. And every operator on values about the limits of every width.
use crate::call::{Call, GUARD_WORDS, TypeCode, VALUE_WORDS};
use crate::classes::{Outcome, Rounds};
use crate::edges;
use crate::generate::PATTERNS;
use crate::native::ScalarType::{Bits, Bool, Integer};
use crate::numbers::{LIMITS, VALUES, about};
use crate::questions;
use crate::words::{LIMIT, REGION, WORDS};

pub const CHOICES: &str = "choices";

const CODES: [u64; 6] = [0, 1, 2, 3, 1 << 32, u64::MAX];
const WIDTHS: [u64; 8] = [0, 1, 8, 128, 129, 65536 + 8, 1 << 63, u64::MAX];
const UNARY: [u64; 12] = [
    0,
    9,
    10,
    11,
    12,
    13,
    14,
    15,
    16,
    17,
    (1 << 32) + 13,
    u64::MAX,
];
const BINARY: [u64; 10] = [0, 13, 19, 20, 26, 29, 38, 39, (1 << 32) + 20, u64::MAX];
// Nodes of Bool, Integer and Bits(8), and ids past all nodes.
const IDS: [u64; 7] = [0, 1, 4, 30, 512, 1 << 32, u64::MAX];
const TRUTHS: [u64; 7] = [0, 1, 2, 255, 1 << 32, 1 << 63, u64::MAX];
const INPUTS: [u64; 3] = [0, 1 << 32, u64::MAX];

const ROOMS: [u64; 14] = [
    0,
    1,
    2,
    3,
    4,
    5,
    6,
    11,
    12,
    13,
    65536,
    1 << 32,
    1 << 63,
    u64::MAX,
];

const NO_TYPE: TypeCode = TypeCode { code: 0, width: 0 };

// The call with every choice of its numbers.
fn chosen(call: Call, lists: &[&[u64]]) -> Vec<Call> {
    let mut calls = vec![call];
    for (place, list) in lists.iter().enumerate() {
        let with = |call: Call| {
            list.iter().map(move |number| {
                let mut call = call;
                *call.numbers_mut()[place] = *number;
                call
            })
        };
        calls = calls.into_iter().flat_map(with).collect();
    }
    calls
}

// The calls with each length of the lent words.
fn with_rooms(calls: Vec<Call>) -> impl Iterator<Item = Call> {
    calls.into_iter().flat_map(|call| {
        ROOMS.into_iter().map(move |number| {
            let mut call = call;
            *call.room_mut().expect("it lends words") = number as usize;
            call
        })
    })
}

fn leaves() -> impl Iterator<Item = Call> {
    let ty = NO_TYPE;
    let constants = [0, 1, 2, u128::MAX].map(|value| Call::Constant { ty, value });
    let inputs = [None, Some((0, 1)), Some((1, 0))].map(|range| edges::input(0, Bool, range));
    let constants = constants.map(|call| chosen(call, &[&CODES, &WIDTHS]));
    let effect = Call::Effect { number: 0, ty };
    let numbered = [inputs[0], inputs[1], inputs[2], effect];
    let numbered = numbered.map(|call| chosen(call, &[&CODES, &WIDTHS, &INPUTS]));
    constants.into_iter().chain(numbered).flatten()
}

fn operations() -> impl Iterator<Item = Call> {
    let unary = Call::Unary {
        ty: NO_TYPE,
        op: 0,
        parameter: 0,
        id: 0,
    };
    let binary = Call::Binary {
        ty: NO_TYPE,
        op: 0,
        left: 0,
        right: 0,
    };
    let unaries = chosen(unary, &[&CODES, &WIDTHS, &UNARY, &WIDTHS, &IDS]);
    let binaries = chosen(binary, &[&CODES, &WIDTHS, &BINARY, &IDS, &IDS]);
    unaries.into_iter().chain(binaries)
}

fn parts() -> impl Iterator<Item = Call> {
    let slice = Call::Slice {
        id: 0,
        offset: 0,
        width: 0,
    };
    let concat = Call::Concat {
        high: 0,
        low: 0,
        low_width: 0,
        width: 0,
    };
    let range = Call::UnsignedRange {
        id: 0,
        low: 0,
        high: 1,
    };
    let slices = chosen(slice, &[&IDS, &WIDTHS, &WIDTHS]);
    let concats = chosen(concat, &[&IDS, &IDS, &WIDTHS, &WIDTHS]);
    let all = [slices, concats, chosen(range, &[&LIMITS])];
    all.into_iter().flatten()
}

// The guards, and the calls that read a node. Of the first nodes any may be a condition.
fn readings() -> impl Iterator<Item = Call> {
    let (condition, expected, room) = (0, 0, GUARD_WORDS);
    let guard = Call::Guard {
        condition,
        expected,
        room,
    };
    let assume = Call::AssumeGuard {
        condition,
        expected,
    };
    let literal = Call::Literal {
        id: 0,
        room: VALUE_WORDS,
    };
    let node = Call::Node { id: 0, room: WORDS };
    let written = [
        chosen(guard, &[&LIMITS, &TRUTHS]),
        chosen(literal, &[&LIMITS]),
        chosen(node, &[&LIMITS]),
    ];
    let assumed = chosen(assume, &[&LIMITS, &TRUTHS]);
    let resolved = chosen(Call::Resolve { id: 0 }, &[&LIMITS]);
    let written = written.into_iter().flat_map(with_rooms);
    written
        .chain(assumed)
        .chain(resolved)
        .chain([Call::IsGraph])
}

// The calls that look at no region, with every choice of numbers.
fn of_values() -> impl Iterator<Item = Call> {
    let room = VALUE_WORDS;
    let unary = Call::EvaluateUnary {
        op: 0,
        parameter: 0,
        value: 300,
        room,
    };
    let binary = Call::EvaluateBinary {
        op: 0,
        ty: NO_TYPE,
        left: 300,
        right: 0,
        room,
    };
    let matches = Call::Matches {
        op: 0,
        expected: 0,
        host64: 0,
        left: 0,
        right: 1,
    };
    let written = [
        chosen(unary, &[&LIMITS, &LIMITS]),
        chosen(binary, &[&CODES, &WIDTHS, &LIMITS]),
        chosen(Call::Mask { width: 0, room }, &[&LIMITS]),
    ];
    let matched = chosen(matches, &[&LIMITS, &TRUTHS, &TRUTHS]);
    written.into_iter().flat_map(with_rooms).chain(matched)
}

// Each unary operator, with each width that it takes, on values about the width's limits and others.
fn unary_values() -> impl Iterator<Item = Call> {
    let widths = |op| if op < 13 { 0..=0 } else { 0..=128u16 };
    let operators = (10..=16).flat_map(move |op| widths(op).map(move |width| (op, width)));
    operators.flat_map(|(op, width)| {
        let values = about(width).into_iter().chain(PATTERNS);
        values.map(move |value| Call::EvaluateUnary {
            op,
            parameter: width.into(),
            value,
            room: VALUE_WORDS,
        })
    })
}

// Each binary operator with each type on each two such values.
fn binary_values() -> impl Iterator<Item = Call> {
    let types = (0..=128).map(Bits).chain([Bool, Integer]);
    let operators = types.flat_map(|ty| (20..=38).map(move |op| (op, ty)));
    operators.flat_map(|(op, ty)| {
        let width = if let Bits(width) = ty { width } else { 128 };
        let values = move || about(width).into_iter().chain(PATTERNS);
        let pairs = values().flat_map(move |left| values().map(move |right| [left, right]));
        pairs.map(move |[left, right]| Call::EvaluateBinary {
            op,
            ty: ty.into(),
            left,
            right,
            room: VALUE_WORDS,
        })
    })
}

fn masks() -> impl Iterator<Item = Call> {
    (0..300).map(|width| Call::Mask {
        width,
        room: VALUE_WORDS,
    })
}

impl Rounds {
    // A graph of leaves, a constant and conditions.
    fn graph_of_each_type(&mut self) -> Result<Vec<u64>, String> {
        let mut region = vec![0; REGION];
        self.comparison.start(CHOICES, &region);
        for call in questions::graph().chain([edges::constant(Bits(8), 5)]) {
            self.comparison.call(&mut region, &call)?;
        }
        Ok(region)
    }

    fn choices_on(&mut self, region: &[u64]) -> Outcome {
        self.comparison.start(CHOICES, region);
        self.comparison.has_both = true;
        let mut copy = region.to_vec();
        let calls = leaves().chain(operations()).chain(parts());
        for call in calls.chain(readings()) {
            self.comparison.call(&mut copy, &call)?;
            if copy != region {
                copy.copy_from_slice(region);
                self.comparison.place(region);
            }
        }
        self.comparison.has_both = false;
        Ok(())
    }

    // What does not depend on the seed.
    pub fn choices(&mut self) -> Outcome {
        let mut region = self.graph_of_each_type()?;
        self.choices_on(&region)?;
        self.choices_on(&[0; REGION])?;
        region[0] = LIMIT as u64 + 1;
        self.choices_on(&region)?;
        self.comparison.start(CHOICES, &[]);
        for call in of_values() {
            self.comparison.call(&mut [], &call)?;
        }
        self.comparison.start(VALUES, &[]);
        for call in unary_values().chain(binary_values()).chain(masks()) {
            self.comparison.call(&mut [], &call)?;
        }
        Ok(())
    }
}

// The original's side: the questions that it does not ask, in document 01's order, and then its own work.
use crate::call::{Answer, Call, GUARD_WORDS, Side, VALUE_WORDS, binary_of, short, unary_of};
use crate::meter;
use crate::native::linear::{Guard, guard};
use crate::native::{Binary, Graph, ScalarType, Unary, opened};
use crate::native::{evaluate_binary, evaluate_unary, mask};
use crate::words::{
    WORDS, binary_code, encode, encode_aliases, encode_from, graph_of, is_range_of, node_words,
    operands,
};
use ScalarType::{Bits, Bool, Integer};
use std::panic::{AssertUnwindSafe, catch_unwind};

pub struct Original;

fn is_unary_typed(operator: Unary, operand: ScalarType, result: ScalarType) -> bool {
    match operator {
        Unary::BoolNot => operand == Bool && result == Bool,
        Unary::BitNot => matches!(operand, Bits(_)) && result == operand,
        Unary::Negate => operand == Integer && result == Integer,
        Unary::Truncate(width) => result == Bits(width),
        Unary::SignExtend(width) => {
            let is_wide = matches!(result, Bits(other) if other >= width);
            operand == Bits(width) && (result == Integer || is_wide)
        }
        Unary::LeadingZeros(width) | Unary::TrailingZeros(width) => {
            operand == Bits(width) && result != Bool
        }
    }
}

fn is_binary_typed(
    operator: Binary,
    left: ScalarType,
    right: ScalarType,
    result: ScalarType,
) -> bool {
    use Binary::*;
    match operator {
        Add | Sub | Mul | DivideSigned | RemainderSigned | DivideUnsigned | RemainderUnsigned => {
            left == result && right == result && result != Bool
        }
        And | Or | Xor => left == result && right == result,
        ShiftLeft | ShiftRight | ArithmeticShiftRight => {
            left == result && result != Bool && right != Bool
        }
        Equal | NotEqual | LessSigned | LessUnsigned | LessEqualSigned | LessEqualUnsigned => {
            left == right && result == Bool
        }
    }
}

// Does `Guard::matches` take the operator? With `host64` set, neither signed one.
fn is_matched(operator: Binary, host64: bool) -> bool {
    use Binary::*;
    match operator {
        Equal | NotEqual | LessUnsigned | LessEqualUnsigned => true,
        LessSigned | LessEqualSigned => !host64,
        _ => false,
    }
}

// Question 4, of the typing table.
fn is_typed(graph: &Graph, call: &Call) -> bool {
    let of = |id: u64| graph.scalars[id as usize].ty;
    let result = call.ty().and_then(|code| code.ty());
    match *call {
        Call::Unary {
            op, parameter, id, ..
        } => unary_of(op, parameter)
            .zip(result)
            .is_some_and(|(operator, result)| is_unary_typed(operator, of(id), result)),
        Call::Binary {
            op, left, right, ..
        } => binary_of(op).zip(result).is_some_and(|(operator, result)| {
            is_binary_typed(operator, of(left), of(right), result)
        }),
        Call::Concat {
            high,
            low,
            low_width,
            width,
        } => {
            low_width <= width
                && of(high) == Bits(short(width - low_width))
                && of(low) == Bits(short(low_width))
        }
        Call::AssumeGuard { condition, .. } | Call::Guard { condition, .. } => {
            of(condition) == Bool
        }
        Call::Matches { op, host64, .. } => {
            binary_of(op).is_some_and(|operator| is_matched(operator, host64 == 1))
        }
        _ => true,
    }
}

// Question 5.
fn is_given(call: &Call) -> bool {
    let Some(ty) = call.ty().and_then(|code| code.ty()) else {
        return true;
    };
    match *call {
        Call::Constant { value, .. } => ty != Bool || value <= 1,
        Call::Input { range, .. } => range.is_none_or(|range| is_range_of(range, ty)),
        _ => true,
    }
}

// Questions 2 to 5: the number of the first that is answered no. Widths and ids are asked whatever the codes beside
// them name; a code that names nothing fails question 4.
fn refused(graph: &Graph, call: &Call) -> Option<u64> {
    let count = graph.scalars.len() as u64;
    if call.widths().iter().any(|width| *width > 128) {
        return Some(2);
    }
    if call.ids().iter().any(|id| *id >= count) {
        return Some(3);
    }
    if !call.is_named() || !is_typed(graph, call) {
        return Some(4);
    }
    (!is_given(call)).then_some(5)
}

fn value_of(value: Option<u128>, room: usize) -> Answer {
    match value {
        Some(_) if room != VALUE_WORDS => Answer::WrongLength,
        Some(value) => Answer::Value(value),
        None => Answer::None,
    }
}

fn guard_of(guard: Option<Guard>, room: usize) -> Answer {
    match guard {
        Some(_) if room != GUARD_WORDS => Answer::WrongLength,
        Some(guard) => Answer::Guard([
            binary_code(guard.operation),
            guard.left as u64,
            guard.right as u64,
            guard.expected.into(),
            guard.host64.into(),
        ]),
        None => Answer::None,
    }
}

fn node_of(graph: &Graph, id: usize, room: usize) -> Answer {
    if room != WORDS {
        return Answer::WrongLength;
    }
    Answer::Node(node_words(&graph.scalars[id], opened::alias(graph, id)))
}

// The evaluators and the mask.
fn evaluated(call: &Call) -> Option<Answer> {
    let ty = call.ty().and_then(|code| code.ty()).unwrap_or(Bool);
    Some(match *call {
        Call::EvaluateUnary {
            op,
            parameter,
            value,
            room,
        } => value_of(evaluate_unary(unary_of(op, parameter)?, value), room),
        Call::EvaluateBinary {
            op,
            left,
            right,
            room,
            ..
        } => value_of(evaluate_binary(binary_of(op)?, ty, left, right), room),
        Call::Mask { width, room } => value_of(Some(mask(short(width))), room),
        _ => return None,
    })
}

// Whether two values are as expected. The operands' ids are not looked at.
fn matches(op: u64, expected: u64, host64: u64, left: u128, right: u128) -> Answer {
    let guard = Guard {
        operation: binary_of(op).expect("question 4 was asked"),
        left: 0,
        right: 0,
        expected: expected == 1,
        host64: host64 == 1,
    };
    Answer::Is(guard.matches(left, right))
}

// The id that a builder answers.
fn built(graph: &mut Graph, call: &Call) -> Option<usize> {
    let ty = call.ty().and_then(|code| code.ty()).unwrap_or(Bool);
    match *call {
        Call::Constant { value, .. } => Some(graph.constant(ty, value)),
        Call::Input { number, range, .. } => Some(graph.input(number as usize, ty, range)),
        Call::Effect { number, .. } => Some(graph.effect(number as usize, ty)),
        Call::Unary {
            op, parameter, id, ..
        } => graph.unary(ty, unary_of(op, parameter)?, id as usize),
        Call::Binary {
            op, left, right, ..
        } => graph.binary(ty, binary_of(op)?, left as usize, right as usize),
        Call::Slice { id, offset, width } => {
            Some(graph.slice(id as usize, short(offset), short(width)))
        }
        Call::Concat {
            high,
            low,
            low_width,
            width,
        } => Some(graph.concat(high as usize, low as usize, short(low_width), short(width))),
        Call::UnsignedRange { id, low, high } => graph.unsigned_range(id as usize, low, high),
        Call::Resolve { id } => Some(graph.resolve(id as usize)),
        _ => None,
    }
}

fn work(graph: &mut Graph, call: &Call) -> Answer {
    match *call {
        Call::Literal { id, room } => value_of(graph.literal(id as usize), room),
        Call::IsGraph => Answer::Is(true),
        Call::AssumeGuard {
            condition,
            expected,
        } => {
            graph.assume_guard(condition as usize, expected == 1);
            Answer::Done
        }
        Call::Guard {
            condition,
            expected,
            room,
        } => guard_of(guard(graph, condition as usize, expected == 1), room),
        Call::Matches {
            op,
            expected,
            host64,
            left,
            right,
        } => matches(op, expected, host64, left, right),
        Call::Node { id, room } => node_of(graph, id as usize, room),
        _ => evaluated(call)
            .unwrap_or_else(|| built(graph, call).map_or(Answer::None, |id| Answer::Id(id as u64))),
    }
}

// The answer to a call on a graph. Questions 7 and 8 end the work in its middle, and it is taken back.
pub fn apply(graph: &mut Graph, call: &Call) -> Answer {
    meter::start();
    if let Some(number) = refused(graph, call) {
        return Answer::Refused(number);
    }
    let count = graph.scalars.len();
    match catch_unwind(AssertUnwindSafe(|| work(graph, call))) {
        Ok(answer) => answer,
        Err(payload) => {
            opened::put_back(graph, count, &meter::aliased());
            Answer::Refused(meter::refusal(payload))
        }
    }
}

// Writes what a call on so many nodes has left, where the words are those before it. Only a guard sets aliases.
pub fn write(graph: &Graph, count: usize, call: &Call, words: &mut [u64]) {
    encode_from(graph, count, words);
    if matches!(call, Call::AssumeGuard { .. }) {
        encode_aliases(graph, words);
    }
}

// Question 6: an element for each node in both slices, each 0 or 1, and the operands of a kept node kept.
fn is_choice(graph: &Graph, keep: &[u8], mapping: &[u64]) -> bool {
    let count = graph.scalars.len();
    let is_kept = |id: &usize| keep[*id] == 1;
    keep.len() == count
        && mapping.len() == count
        && keep.iter().all(|element| *element <= 1)
        && (0..count)
            .filter(is_kept)
            .all(|id| operands(&graph.scalars[id].operation).iter().all(is_kept))
}

// A retain on a graph.
pub fn retain(graph: &mut Graph, keep: &[u8], mapping: &mut [u64]) -> Answer {
    if !is_choice(graph, keep, mapping) {
        return Answer::Refused(6);
    }
    let keep: Vec<bool> = keep.iter().map(|element| *element == 1).collect();
    let ids = graph.retain(&keep);
    for (word, id) in mapping.iter_mut().zip(ids) {
        *word = id as u64;
    }
    Answer::Kept(graph.scalars.len() as u64)
}

// A retain on a region, from which the maps are filled.
pub fn retain_region(region: &mut [u64], keep: &[u8], mapping: &mut [u64]) -> Answer {
    let Some(mut graph) = graph_of(region) else {
        return Answer::Refused(1);
    };
    let answer = retain(&mut graph, keep, mapping);
    encode(&graph, region);
    answer
}

impl Side for Original {
    // The maps are filled from the region before the call.
    fn call(&mut self, region: &mut [u64], call: &Call) -> Answer {
        meter::start();
        if !call.has_region() {
            return apply(&mut Graph::default(), call);
        }
        let Some(mut graph) = graph_of(region) else {
            return match call {
                Call::IsGraph => Answer::Is(false),
                _ => Answer::Refused(1),
            };
        };
        let count = graph.scalars.len();
        let answer = apply(&mut graph, call);
        write(&graph, count, call, region);
        answer
    }

    fn takes(&self, _: &Call) -> bool {
        true
    }
}

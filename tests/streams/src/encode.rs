// Calls written as the records of docs/RECORDS.md.
use crate::call::{Call, TypeCode};
use crate::native::Range;
use crate::record::{
    BINARY, CONCAT, CONSTANT, EFFECT, GUARD, INPUT, RETAIN, SLICE, UNARY, UNSIGNED_RANGE,
};

// A number in one byte or in two. One that is too large becomes the largest there is.
fn byte(number: u64) -> [u8; 1] {
    [u8::try_from(number).unwrap_or(u8::MAX)]
}

fn short(number: u64) -> [u8; 2] {
    u16::try_from(number).unwrap_or(u16::MAX).to_le_bytes()
}

fn type_bytes(ty: TypeCode) -> [u8; 2] {
    [byte(ty.code)[0], byte(ty.width)[0]]
}

// A record with any tag and any body of at most 65,535 bytes.
pub fn framed(tag: u8, body: &[u8]) -> Vec<u8> {
    let length = u16::try_from(body.len()).expect("a body has at most 65,535 bytes");
    [&[tag][..], &length.to_le_bytes(), body].concat()
}

pub fn retain(keep: &[u8]) -> Vec<u8> {
    framed(RETAIN, keep)
}

fn input(number: u64, ty: TypeCode, range: Option<Range>) -> Vec<u8> {
    let declared = [&number.to_le_bytes()[..], &type_bytes(ty)].concat();
    match range {
        None => framed(INPUT, &[&declared[..], &[0]].concat()),
        Some(Range { min, max }) => {
            let ends = [min.to_le_bytes(), max.to_le_bytes()].concat();
            framed(INPUT, &[&declared[..], &[1], &ends].concat())
        }
    }
}

// A record of a call that has a type.
fn typed(call: &Call) -> Option<Vec<u8>> {
    let (tag, fields): (u8, [&[u8]; 4]) = match *call {
        Call::Input { number, ty, range } => return Some(input(number, ty, range)),
        Call::Constant { ty, value } => {
            (CONSTANT, [&type_bytes(ty), &value.to_le_bytes(), &[], &[]])
        }
        Call::Effect { number, ty } => (EFFECT, [&number.to_le_bytes(), &type_bytes(ty), &[], &[]]),
        Call::Unary {
            ty,
            op,
            parameter,
            id,
        } => (
            UNARY,
            [&type_bytes(ty), &byte(op), &byte(parameter), &short(id)],
        ),
        Call::Binary {
            ty,
            op,
            left,
            right,
        } => (
            BINARY,
            [&type_bytes(ty), &byte(op), &short(left), &short(right)],
        ),
        _ => return None,
    };
    Some(framed(tag, &fields.concat()))
}

// A call as a record, if there are records of its kind.
pub fn encode(call: &Call) -> Option<Vec<u8>> {
    let (tag, fields): (u8, [&[u8]; 4]) = match *call {
        Call::Slice { id, offset, width } => {
            (SLICE, [&short(id), &short(offset), &byte(width), &[]])
        }
        Call::Concat {
            high,
            low,
            low_width,
            width,
        } => (
            CONCAT,
            [&short(high), &short(low), &byte(low_width), &byte(width)],
        ),
        Call::UnsignedRange { id, low, high } => (
            UNSIGNED_RANGE,
            [&short(id), &low.to_le_bytes(), &high.to_le_bytes(), &[]],
        ),
        Call::AssumeGuard {
            condition,
            expected,
        } => (GUARD, [&short(condition), &byte(expected), &[], &[]]),
        _ => return typed(call),
    };
    Some(framed(tag, &fields.concat()))
}

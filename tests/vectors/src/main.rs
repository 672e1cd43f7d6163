// Writes test vectors for crates/word to FOLDER/stdin, and the answers of u128 and i128 to FOLDER/stdout.
mod random;

use random::Random;
use std::{env, fs};
use Kind::*;

const LIMITS: [u128; 16] = [
    0,
    1,
    2,
    (1 << 63) - 1,
    1 << 63,
    (1 << 63) + 1,
    (1 << 64) - 2,
    (1 << 64) - 1,
    1 << 64,
    (1 << 64) + 1,
    (1 << 127) - 2,
    (1 << 127) - 1,
    1 << 127,
    (1 << 127) + 1,
    u128::MAX - 1,
    u128::MAX,
];

const AMOUNTS: [u128; 13] = [
    0,
    1,
    31,
    32,
    63,
    64,
    65,
    127,
    128,
    129,
    255,
    1 << 31,
    (1 << 32) - 1,
];

const RANDOM_COUNT: usize = 40;
const EDGE_COUNT: usize = 4;
const EDGES: [u128; 3] = [(1 << 127) - 1, 1 << 127, u128::MAX];
const SEED: u64 = 0x5ca1_ab1e_0128_0064;

enum Kind {
    Unary,
    Binary,
    Shift,
    Sum,
    Product,
    Quotient,
}

type Answer = fn(u128, u128) -> Option<u128>;

struct Operation {
    code: u8,
    kind: Kind,
    answer: Answer,
}

const fn operation(code: u8, kind: Kind, answer: Answer) -> Operation {
    Operation { code, kind, answer }
}

const WORD: [Operation; 26] = [
    operation(0x00, Sum, |a, b| Some(a.wrapping_add(b))),
    operation(0x01, Sum, |a, b| Some(a.wrapping_sub(b))),
    operation(0x02, Unary, |a, _| Some(a.wrapping_neg())),
    operation(0x03, Product, |a, b| Some(a.wrapping_mul(b))),
    operation(0x04, Product, |a, b| a.checked_mul(b)),
    operation(0x05, Quotient, |a, b| a.checked_div(b)),
    operation(0x06, Quotient, |a, b| a.checked_rem(b)),
    operation(0x10, Binary, |a, b| Some(a & b)),
    operation(0x11, Binary, |a, b| Some(a | b)),
    operation(0x12, Binary, |a, b| Some(a ^ b)),
    operation(0x13, Unary, |a, _| Some(!a)),
    operation(0x14, Unary, |a, _| Some(a.leading_zeros().into())),
    operation(0x15, Unary, |a, _| Some(a.trailing_zeros().into())),
    operation(0x16, Unary, |a, _| Some(a.is_power_of_two().into())),
    operation(0x17, Unary, |a, _| Some((a == 0).into())),
    operation(0x18, Unary, |a, _| Some(pattern(a as i128))),
    operation(0x20, Shift, |a, b| Some(a.unbounded_shl(b as u32))),
    operation(0x21, Shift, |a, b| Some(a.unbounded_shr(b as u32))),
    operation(0x22, Shift, |a, b| a.checked_shl(b as u32)),
    operation(0x23, Shift, |a, b| a.checked_shr(b as u32)),
    operation(0x24, Shift, |a, b| {
        Some(a.checked_shr(b as u32).unwrap_or(0) & 1)
    }),
    operation(0x30, Binary, |a, b| Some((a == b).into())),
    operation(0x31, Binary, |a, b| Some((a < b).into())),
    operation(0x32, Binary, |a, b| Some((a <= b).into())),
    operation(0x33, Binary, |a, b| Some(a.min(b))),
    operation(0x34, Binary, |a, b| Some(a.max(b))),
];

const SIGNED: [Operation; 23] = [
    operation(0x40, Sum, |a, b| {
        Some(pattern(signed(a).wrapping_add(signed(b))))
    }),
    operation(0x41, Sum, |a, b| {
        Some(pattern(signed(a).wrapping_sub(signed(b))))
    }),
    operation(0x42, Product, |a, b| {
        Some(pattern(signed(a).wrapping_mul(signed(b))))
    }),
    operation(0x43, Unary, |a, _| Some(signed(a) as u128)),
    operation(0x44, Unary, |a, _| Some(signed(a).unsigned_abs())),
    operation(0x45, Shift, |a, b| {
        Some(pattern(signed(a).unbounded_shr(b as u32)))
    }),
    operation(0x50, Sum, |a, b| {
        signed(a).checked_add(signed(b)).map(pattern)
    }),
    operation(0x51, Sum, |a, b| {
        signed(a).checked_sub(signed(b)).map(pattern)
    }),
    operation(0x52, Product, |a, b| {
        signed(a).checked_mul(signed(b)).map(pattern)
    }),
    operation(0x53, Unary, |a, _| signed(a).checked_neg().map(pattern)),
    operation(0x54, Unary, |a, _| signed(a).checked_abs().map(pattern)),
    operation(0x55, Quotient, |a, b| {
        signed(a).checked_div(signed(b)).map(pattern)
    }),
    operation(0x56, Quotient, |a, b| {
        signed(a).checked_rem(signed(b)).map(pattern)
    }),
    operation(0x60, Binary, |a, b| Some(pattern(signed(a) & signed(b)))),
    operation(0x61, Binary, |a, b| Some(pattern(signed(a) | signed(b)))),
    operation(0x62, Binary, |a, b| Some(pattern(signed(a) ^ signed(b)))),
    operation(0x63, Unary, |a, _| Some(pattern(!signed(a)))),
    operation(0x70, Binary, |a, b| Some((signed(a) == signed(b)).into())),
    operation(0x71, Binary, |a, b| Some((signed(a) < signed(b)).into())),
    operation(0x72, Binary, |a, b| Some((signed(a) <= signed(b)).into())),
    operation(0x73, Binary, |a, b| Some(pattern(signed(a).min(signed(b))))),
    operation(0x74, Binary, |a, b| Some(pattern(signed(a).max(signed(b))))),
    operation(0x75, Unary, |a, _| Some(signed(a).is_negative().into())),
];

// Quotient, remainder and steps of a division from the dividend's highest set bit.
const DIVISION: [Operation; 3] = [
    operation(0x07, Quotient, |a, b| a.checked_div(b)),
    operation(0x08, Quotient, |a, b| a.checked_rem(b)),
    operation(0x09, Quotient, |a, b| {
        (b != 0).then(|| u128::from(128 - a.leading_zeros()))
    }),
];

fn signed(a: u128) -> i128 {
    a as i128
}

fn pattern(a: i128) -> u128 {
    a as u128
}

// Operands whose sum or product is at or just past an edge, or whose quotient is exact or just not.
fn edge_pairs(kind: &Kind, edge: u128, a: u128) -> Vec<(u128, u128)> {
    match kind {
        Sum => {
            let b = edge.wrapping_sub(a);
            vec![(a, b), (a, b.wrapping_add(1))]
        }
        Product => {
            let b = edge / a;
            vec![(a, b), (a, b.wrapping_add(1))]
        }
        Quotient => {
            let multiple = edge - edge % a;
            vec![(multiple, a), (multiple.wrapping_sub(1), a)]
        }
        _ => vec![],
    }
}

struct Vectors {
    input: String,
    output: String,
    random: Random,
}

impl Vectors {
    fn push(&mut self, operation: &Operation, a: u128, b: u128) {
        self.input += &format!("{:02x} {a:032x} {b:032x}\n", operation.code);
        self.output += &match (operation.answer)(a, b) {
            Some(answer) => format!("{answer:032x}\n"),
            None => "none\n".to_string(),
        };
    }

    fn push_pairs(&mut self, operation: &Operation, rights: &[u128]) {
        for a in LIMITS {
            for b in rights {
                self.push(operation, a, *b);
            }
        }
    }

    fn push_limits(&mut self, operation: &Operation) {
        match operation.kind {
            Unary => self.push_pairs(operation, &[0]),
            Shift => {
                self.push_pairs(operation, &LIMITS);
                self.push_pairs(operation, &AMOUNTS);
            }
            _ => self.push_pairs(operation, &LIMITS),
        }
    }

    fn push_signs(&mut self, operation: &Operation, a: u128, b: u128) {
        self.push(operation, a, b);
        self.push(operation, a.wrapping_neg(), b);
        self.push(operation, a, b.wrapping_neg());
        self.push(operation, a.wrapping_neg(), b.wrapping_neg());
    }

    fn push_edges(&mut self, operation: &Operation) {
        for _ in 0..EDGE_COUNT {
            let operand = self.random.number().max(1);
            for edge in EDGES {
                for (a, b) in edge_pairs(&operation.kind, edge, operand) {
                    self.push_signs(operation, a, b);
                }
            }
        }
    }

    fn push_random(&mut self, operation: &Operation) {
        for _ in 0..RANDOM_COUNT {
            let a = self.random.operand();
            let b = match operation.kind {
                Shift => self.random.amount(),
                _ => self.random.operand(),
            };
            self.push(operation, a, b);
        }
    }
}

fn main() {
    let folder = env::args().nth(1).expect("usage: vectors FOLDER");
    let mut vectors = Vectors {
        input: String::new(),
        output: String::new(),
        random: Random(SEED),
    };
    for operation in WORD.iter().chain(&SIGNED).chain(&DIVISION) {
        vectors.push_limits(operation);
        vectors.push_edges(operation);
        vectors.push_random(operation);
    }
    for operation in &DIVISION {
        vectors.push_pairs(operation, &[7]);
    }
    fs::write(format!("{folder}/stdin"), vectors.input).expect("write stdin");
    fs::write(format!("{folder}/stdout"), vectors.output).expect("write stdout");
}

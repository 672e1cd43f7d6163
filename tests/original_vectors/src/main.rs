// Writes test vectors for crates/range and crates/evaluate to FOLDER/stdin, and the original's answers to FOLDER/stdout.
// A vector: hex digits of the code (2), the type (2: 0 Bool, 1 Bits, 2 Integer), the width (2) and four operands (32 each),
// with a space between two fields. What a code does not use is 0. A range is two operands, its ends.
mod answers;
mod operands;
#[path = "../../original/operators.rs"]
mod operators;
#[path = "../../vectors/src/random.rs"]
mod random;

#[allow(dead_code)]
mod native {
    include!(concat!(env!("OUT_DIR"), "/native.rs"));
}

use answers::*;
use native::{Binary, Range, ScalarType, Unary};
use operands::*;
use operators::*;
use random::Random;
use std::{env, fs};

const SEED: u64 = 0x5ca1_ab1e_0003_0002;

const INTEGER_RULES: [Binary; 8] = [
    Binary::Add,
    Binary::Sub,
    Binary::Mul,
    Binary::And,
    Binary::DivideSigned,
    Binary::RemainderSigned,
    Binary::DivideUnsigned,
    Binary::RemainderUnsigned,
];

const BITS_RULES: [Binary; 6] = [
    Binary::Add,
    Binary::Sub,
    Binary::Mul,
    Binary::And,
    Binary::ShiftLeft,
    Binary::ShiftRight,
];

fn is_shift(operation: Binary) -> bool {
    matches!(
        operation,
        Binary::ShiftLeft | Binary::ShiftRight | Binary::ArithmeticShiftRight
    )
}

struct Vectors {
    input: String,
    output: String,
    random: Random,
}

impl Vectors {
    fn push(&mut self, code: u8, ty: ScalarType, operands: [u128; 4], answer: Answer) {
        let (ty, width) = match ty {
            ScalarType::Bool => (0, 0),
            ScalarType::Bits(width) => (1, width),
            ScalarType::Integer => (2, 0),
        };
        let [a, b, c, d] = operands;
        self.input +=
            &format!("{code:02x} {ty:02x} {width:02x} {a:032x} {b:032x} {c:032x} {d:032x}\n");
        self.output += &answer.line();
    }

    // The parameter stands as the width of Bits.
    fn push_unary(&mut self, operation: Unary, value: u128) {
        let ty = ScalarType::Bits(parameter(operation));
        let answer = unary_value(operation, value);
        self.push(unary_code(operation), ty, [value, 0, 0, 0], answer);
    }

    fn push_binary(&mut self, operation: Binary, ty: ScalarType, a: u128, b: u128) {
        let answer = binary_value(operation, ty, a, b);
        self.push(binary_code(operation), ty, [a, b, 0, 0], answer);
    }

    fn push_ranges(&mut self, code: u8, ty: ScalarType, a: Range, b: Range, answer: Answer) {
        let operands = [a.min, a.max, b.min, b.max].map(|end| end as u128);
        self.push(code, ty, operands, answer);
    }

    fn push_rule(&mut self, operation: Binary, ty: ScalarType, a: Range, b: Range) {
        let answer = binary_range(operation, ty, a, b);
        self.push_ranges(RANGE_OF + binary_code(operation), ty, a, b, answer);
    }

    // Every operand, every pair, of up to 3 bits.
    fn push_small(&mut self) {
        for width in 0..=3 {
            let ty = ScalarType::Bits(width);
            for a in 0..1 << width {
                for operation in unary(width) {
                    self.push_unary(operation, a);
                }
                for b in 0..1 << width {
                    for operation in BINARY {
                        self.push_binary(operation, ty, a, b);
                    }
                }
            }
        }
    }

    fn push_unaries(&mut self) {
        for width in WIDTHS {
            for operation in unary(width) {
                for value in limits(width) {
                    self.push_unary(operation, value);
                }
                for _ in 0..4 {
                    let value = self.random.operand();
                    self.push_unary(operation, value);
                }
            }
        }
    }

    fn push_shifts(&mut self, operation: Binary, ty: ScalarType) {
        let width = width_of(ty);
        for amount in amounts(width) {
            let a = pick(&mut self.random, &limits(width));
            self.push_binary(operation, ty, a, amount);
            let a = self.random.operand();
            self.push_binary(operation, ty, a, amount);
        }
        for _ in 0..4 {
            let (a, amount) = (self.random.operand(), self.random.amount());
            self.push_binary(operation, ty, a, amount);
        }
    }

    fn push_pairs(&mut self, operation: Binary, ty: ScalarType) {
        let limits = limits(width_of(ty));
        for a in &limits {
            let b = pick(&mut self.random, &limits);
            self.push_binary(operation, ty, *a, b);
        }
        for _ in 0..2 {
            let a = pick(&mut self.random, &limits);
            self.push_binary(operation, ty, a, a);
            self.push_binary(operation, ty, a, 0);
        }
        for _ in 0..4 {
            let (a, b) = (self.random.operand(), self.random.operand());
            self.push_binary(operation, ty, a, b);
        }
    }

    fn push_all_pairs(&mut self, operation: Binary, ty: ScalarType) {
        let limits = limits(width_of(ty));
        for a in &limits {
            for b in &limits {
                self.push_binary(operation, ty, *a, *b);
            }
        }
    }

    fn push_binaries(&mut self) {
        for operation in BINARY {
            for ty in types() {
                if is_shift(operation) {
                    self.push_shifts(operation, ty);
                } else {
                    self.push_pairs(operation, ty);
                }
            }
            self.push_all_pairs(operation, ScalarType::Integer);
        }
    }

    // Widths that question 2 refuses.
    fn push_refused(&mut self) {
        for width in [129, 192, 255] {
            let (a, b) = (self.random.operand(), self.random.operand());
            for operation in unary(width) {
                self.push_unary(operation, a);
            }
            for operation in BINARY {
                self.push_binary(operation, ScalarType::Bits(width), a, b);
            }
        }
    }

    fn push_types(&mut self) {
        for width in 0..=128 {
            let ty = ScalarType::Bits(width);
            self.push(MASK, ty, [0; 4], mask_of(width));
            let operation = Unary::SignExtend(width);
            let answer = unary_range(operation, ty, None);
            self.push(RANGE_OF + unary_code(operation), ty, [0; 4], answer);
        }
        for width in 0..=255 {
            let ty = ScalarType::Bits(width);
            self.push(TYPE_RANGE, ty, [0; 4], type_range(ty));
        }
        for ty in [ScalarType::Bool, ScalarType::Integer] {
            self.push(TYPE_RANGE, ty, [0; 4], type_range(ty));
        }
    }

    // What is asked of one range: whether it holds a number, whether it is another, and its negation.
    fn push_queries(&mut self, a: Range, b: Range) {
        let ty = ScalarType::Integer;
        let point = Range::singleton(a.min);
        self.push_ranges(CONTAINS, ty, b, point, contains(b, a.min));
        self.push_ranges(EQ, ty, a, b, eq(a, b));
        self.push_ranges(EQ, ty, a, a, eq(a, a));
        let only = [a.min as u128, 0, 0, 0];
        self.push(SINGLETON, ty, only, singleton(a.min));
        let operation = Unary::Negate;
        let answer = unary_range(operation, ty, Some(a));
        let code = RANGE_OF + unary_code(operation);
        self.push(code, ty, [a.min as u128, a.max as u128, 0, 0], answer);
    }

    fn push_small_rules(&mut self) {
        for a in small_ranges(-3) {
            for b in small_ranges(-3) {
                for operation in INTEGER_RULES {
                    self.push_rule(operation, ScalarType::Integer, a, b);
                }
            }
            let b = pick(&mut self.random, &small_ranges(-3));
            self.push_queries(a, b);
        }
        for a in small_ranges(-1) {
            for b in small_ranges(-1) {
                for operation in [Binary::ShiftLeft, Binary::ShiftRight] {
                    self.push_rule(operation, ScalarType::Bits(3), a, b);
                }
            }
        }
    }

    fn push_edge_rules(&mut self) {
        for a in ranges(&CORNERS) {
            for b in ranges(&CORNERS) {
                for operation in INTEGER_RULES {
                    self.push_rule(operation, ScalarType::Integer, a, b);
                }
            }
        }
        for a in ranges(&[0, 1, 2]) {
            for b in ranges(&SHIFTS) {
                for operation in [Binary::ShiftLeft, Binary::ShiftRight] {
                    self.push_rule(operation, ScalarType::Bits(127), a, b);
                }
            }
        }
    }

    fn push_integer_rules(&mut self) {
        for operation in INTEGER_RULES {
            for _ in 0..30 {
                let (a, b) = (limit_range(&mut self.random), limit_range(&mut self.random));
                self.push_rule(operation, ScalarType::Integer, a, b);
            }
            for _ in 0..30 {
                let (a, b) = (
                    random_range(&mut self.random),
                    random_range(&mut self.random),
                );
                self.push_rule(operation, ScalarType::Integer, a, b);
            }
        }
        for _ in 0..40 {
            let (a, b) = (limit_range(&mut self.random), limit_range(&mut self.random));
            self.push_queries(a, b);
        }
    }

    fn push_bits_rules(&mut self) {
        for width in WIDTHS {
            for operation in BITS_RULES {
                for _ in 0..12 {
                    let a = bits_range(&mut self.random, width);
                    let b = if is_shift(operation) {
                        amount_range(&mut self.random, width)
                    } else {
                        bits_range(&mut self.random, width)
                    };
                    self.push_rule(operation, ScalarType::Bits(width), a, b);
                }
            }
        }
    }
}

fn main() {
    let folder = env::args().nth(1).expect("usage: original_vectors FOLDER");
    let mut vectors = Vectors {
        input: String::new(),
        output: String::new(),
        random: Random(SEED),
    };
    vectors.push_small();
    vectors.push_unaries();
    vectors.push_binaries();
    vectors.push_refused();
    vectors.push_types();
    vectors.push_small_rules();
    vectors.push_edge_rules();
    vectors.push_integer_rules();
    vectors.push_bits_rules();
    fs::write(format!("{folder}/stdin"), vectors.input).expect("write stdin");
    fs::write(format!("{folder}/stdout"), vectors.output).expect("write stdout");
}

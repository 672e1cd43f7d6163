// Fixed streams whose answers hang on values and ranges: a constant declared first is found again, a comparison with
// what is outside a range is decided.
use crate::built::{
    ARITHMETIC_SHIFT_RIGHT, Built, Case, DIVIDE_SIGNED, LEADING_ZEROS, LESS_SIGNED, MUL,
    REMAINDER_SIGNED, TRAILING_ZEROS, binary, constant, effect, guard, input, slice, unary,
    unsigned_range,
};
use crate::call::Answer;
use crate::native::ScalarType;
use crate::plans::{EQUAL, NEGATE, SHIFT_LEFT, SIGN_EXTEND};
use ScalarType::{Bits, Bool, Integer};

// 2^127 - 1 has a range, so that a guard narrows by it; 2^127 has none.
fn wide_constants() -> Case {
    let mut built = Built::new();
    let ty = Bits(128);
    for (number, value, is_narrowed) in [(0, (1 << 127) - 1, true), (1, 1 << 127, false)] {
        let id = built.id(&input(number, ty, Some((0, i128::MAX))));
        let limit = built.id(&constant(ty, value));
        let condition = built.id(&binary(Bool, EQUAL, id, limit));
        let count = built.count();
        built.expect(&guard(condition, 1), Answer::Done);
        assert_eq!(built.count() > count, is_narrowed);
    }
    built.named("Bits(128) constants 2^127 - 1 and 2^127")
}

fn unsigned_ranges() -> Case {
    let mut built = Built::new();
    let byte = built.id(&effect(0, Bits(8)));
    let most = built.id(&effect(1, Bits(64)));
    let wide = built.id(&effect(2, Bits(65)));
    let integer = built.id(&effect(3, Integer));
    let truth = built.id(&effect(4, Bool));
    let none = built.id(&effect(5, Bits(0)));
    built.id(&unsigned_range(byte, 3, 255));
    built.expect(&unsigned_range(byte, 3, 256), Answer::None);
    built.expect(&unsigned_range(byte, 4, 3), Answer::None);
    built.expect(&unsigned_range(byte, 3, u128::MAX), Answer::None);
    built.expect(&unsigned_range(byte, 1 << 127, 1), Answer::None);
    built.id(&unsigned_range(most, 1, u64::MAX.into()));
    built.expect(&unsigned_range(most, 1, 1 << 64), Answer::None);
    for id in [wide, integer, truth] {
        built.expect(&unsigned_range(id, 0, 1), Answer::None);
    }
    built.id(&unsigned_range(none, 0, 0));
    built.expect(&unsigned_range(none, 0, 1), Answer::None);
    built.named("unsigned ranges")
}

// Constants, the record made of them, and the constant that it must answer, or None.
type Row = (Vec<Vec<u8>>, Vec<u8>, Option<Vec<u8>>);

fn rows() -> Vec<Row> {
    let byte = |value| constant(Bits(8), value);
    let integer = |value: i128| constant(Integer, value as u128);
    let of_byte = |op| unary(Integer, op, 8, 0);
    vec![
        (vec![byte(128)], of_byte(SIGN_EXTEND), Some(integer(-128))),
        (vec![byte(127)], of_byte(SIGN_EXTEND), Some(integer(127))),
        (vec![integer(i128::MIN)], unary(Integer, NEGATE, 0, 0), None),
        (
            vec![byte(129), byte(1)],
            binary(Bits(8), SHIFT_LEFT, 0, 1),
            Some(byte(2)),
        ),
        (
            vec![byte(128), byte(200)],
            binary(Bits(8), ARITHMETIC_SHIFT_RIGHT, 0, 1),
            Some(byte(255)),
        ),
        (
            vec![byte(128), byte(1)],
            binary(Bool, LESS_SIGNED, 0, 1),
            Some(constant(Bool, 0)),
        ),
        (
            vec![integer(-7), integer(2)],
            binary(Integer, DIVIDE_SIGNED, 0, 1),
            Some(integer(-3)),
        ),
        (
            vec![integer(-7), integer(3)],
            binary(Integer, REMAINDER_SIGNED, 0, 1),
            Some(integer(-1)),
        ),
        (vec![byte(16)], of_byte(LEADING_ZEROS), Some(integer(3))),
        (vec![byte(0)], of_byte(TRAILING_ZEROS), Some(integer(8))),
        (vec![integer(43_981)], slice(0, 4, 8), Some(byte(188))),
    ]
}

fn values() -> Vec<Case> {
    let mut cases = vec![];
    for (number, (operands, record, value)) in rows().into_iter().enumerate() {
        let mut built = Built::new();
        for operand in operands {
            built.id(&operand);
        }
        let answer = match value {
            Some(value) => Answer::Id(built.id(&value)),
            None => Answer::None,
        };
        built.expect(&record, answer);
        cases.push(built.named(format!("value {}", number + 1)));
    }
    cases
}

// [-3, 2] times [-4, 5] is [-15, 12]: what is outside is decided, what is inside is not.
fn product() -> Case {
    let mut built = Built::new();
    let left = built.id(&input(0, Integer, Some((-3, 2))));
    let right = built.id(&input(1, Integer, Some((-4, 5))));
    let product = built.id(&binary(Integer, MUL, left, right));
    let no = built.id(&constant(Bool, 0));
    let ends = [(-15i128, true), (-14, false), (12, true), (11, false)];
    for (end, is_decided) in ends {
        let end_id = built.id(&constant(Integer, end as u128));
        let [a, b] = if end < 0 {
            [product, end_id]
        } else {
            [end_id, product]
        };
        let id = built.id(&binary(Bool, LESS_SIGNED, a, b));
        assert_eq!(id == no, is_decided, "{end}");
    }
    built.named("the range of a product")
}

pub fn value_cases() -> Vec<Case> {
    let mut cases = values();
    cases.extend([product(), wide_constants(), unsigned_ranges()]);
    cases
}

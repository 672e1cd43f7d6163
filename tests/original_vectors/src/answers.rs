// The questions of the vectors, and the original's answers to them.
use crate::native::{
    Binary, Graph, Operation, Range, ScalarType, Unary, evaluate_binary, evaluate_unary, mask,
    opened,
};
use crate::operators::{BINARY, BINARY_CODE, UNARY_CODE, unary};

// The range of a node has its operator's code with this bit set.
pub const RANGE_OF: u8 = 0x40;

pub const MASK: u8 = 0x80;
pub const TYPE_RANGE: u8 = 0x81;
pub const SINGLETON: u8 = 0x82;
pub const CONTAINS: u8 = 0x83;
pub const EQ: u8 = 0x84;

pub fn unary_code(operation: Unary) -> u8 {
    let width = parameter(operation);
    UNARY_CODE + place(&unary(width), operation)
}

pub fn binary_code(operation: Binary) -> u8 {
    BINARY_CODE + place(&BINARY, operation)
}

fn place<T: PartialEq>(operators: &[T], operation: T) -> u8 {
    let place = operators.iter().position(|other| *other == operation);
    place.expect("an operator") as u8
}

// The parameter, or 0 where the operator has none.
pub fn parameter(operation: Unary) -> u16 {
    match operation {
        Unary::BoolNot | Unary::BitNot | Unary::Negate => 0,
        Unary::Truncate(width)
        | Unary::SignExtend(width)
        | Unary::LeadingZeros(width)
        | Unary::TrailingZeros(width) => width,
    }
}

pub enum Answer {
    Pattern(u128),
    Interval(Range),
    Refused(u8),
    Nothing,
}

impl Answer {
    pub fn line(&self) -> String {
        match self {
            Self::Pattern(value) => format!("{value:032x}\n"),
            Self::Interval(range) => format!("{:032x} {:032x}\n", range.min, range.max),
            Self::Refused(question) => format!("refused {question}\n"),
            Self::Nothing => "none\n".to_string(),
        }
    }
}

impl From<Option<u128>> for Answer {
    fn from(value: Option<u128>) -> Self {
        value.map_or(Self::Nothing, Self::Pattern)
    }
}

impl From<Option<Range>> for Answer {
    fn from(range: Option<Range>) -> Self {
        range.map_or(Self::Nothing, Self::Interval)
    }
}

impl From<bool> for Answer {
    fn from(truth: bool) -> Self {
        Self::Pattern(truth.into())
    }
}

// A width above 128 is refused here by question 2; the original is not asked.
pub fn unary_value(operation: Unary, value: u128) -> Answer {
    if parameter(operation) > 128 {
        return Answer::Refused(2);
    }
    evaluate_unary(operation, value).into()
}

pub fn binary_value(operation: Binary, ty: ScalarType, a: u128, b: u128) -> Answer {
    if matches!(ty, ScalarType::Bits(width) if width > 128) {
        return Answer::Refused(2);
    }
    evaluate_binary(operation, ty, a, b).into()
}

// The range of a node on two inputs, or None where there is no node or no range.
pub fn binary_range(operation: Binary, ty: ScalarType, a: Range, b: Range) -> Answer {
    let mut graph = Graph::default();
    let left = graph.input(0, ty, Some(a));
    let right = graph.input(1, ty, Some(b));
    let range = graph.binary(ty, operation, left, right).and_then(|id| {
        let node = &graph.scalars[id];
        assert_eq!(node.operation, Operation::Binary(operation, left, right));
        node.range
    });
    if ty == ScalarType::Integer {
        check_own(operation, a, b, range);
    }
    range.into()
}

// The original's own functions of ranges say the same.
fn check_own(operation: Binary, a: Range, b: Range, range: Option<Range>) {
    match operation {
        Binary::Add => assert_eq!(opened::add(a, b), range),
        Binary::Sub => assert_eq!(opened::sub(a, b), range),
        Binary::Mul => assert_eq!(opened::mul(a, b), range),
        _ => {}
    }
}

// The range of an Integer node on one input, or None where there is no node or no range.
pub fn unary_range(operation: Unary, ty: ScalarType, range: Option<Range>) -> Answer {
    let mut graph = Graph::default();
    let value = graph.input(0, ty, range);
    let range = graph
        .unary(ScalarType::Integer, operation, value)
        .and_then(|id| {
            let node = &graph.scalars[id];
            assert_eq!(node.operation, Operation::Unary(operation, value));
            node.range
        });
    range.into()
}

pub fn mask_of(width: u16) -> Answer {
    Answer::Pattern(mask(width))
}

pub fn type_range(ty: ScalarType) -> Answer {
    opened::type_range(ty).into()
}

pub fn singleton(value: i128) -> Answer {
    Answer::Interval(Range::singleton(value))
}

pub fn contains(range: Range, value: i128) -> Answer {
    range.contains(value).into()
}

pub fn eq(a: Range, b: Range) -> Answer {
    (a == b).into()
}

// The original's operators in the source's order, which is that of their codes.
use crate::native::{Binary, Unary};

pub const UNARY_CODE: u8 = 10;
pub const BINARY_CODE: u8 = 20;

pub const BINARY: [Binary; 19] = [
    Binary::Add,
    Binary::Sub,
    Binary::Mul,
    Binary::And,
    Binary::Or,
    Binary::Xor,
    Binary::ShiftLeft,
    Binary::ShiftRight,
    Binary::ArithmeticShiftRight,
    Binary::Equal,
    Binary::NotEqual,
    Binary::LessSigned,
    Binary::LessUnsigned,
    Binary::LessEqualSigned,
    Binary::LessEqualUnsigned,
    Binary::DivideSigned,
    Binary::RemainderSigned,
    Binary::DivideUnsigned,
    Binary::RemainderUnsigned,
];

// The unary operators with that parameter.
pub fn unary(width: u16) -> [Unary; 7] {
    [
        Unary::BoolNot,
        Unary::BitNot,
        Unary::Negate,
        Unary::Truncate(width),
        Unary::SignExtend(width),
        Unary::LeadingZeros(width),
        Unary::TrailingZeros(width),
    ]
}

//! The types of the original, with its names and shapes, and their codes in the library.

/// A node's number.
pub type ScalarId = usize;
/// An input's number.
pub type InputId = usize;

/// The type of a node.
#[derive(Clone, Copy, Debug, PartialEq, Eq, Hash)]
pub enum ScalarType {
    Bool,
    /// So many bits, at most 128.
    Bits(u16),
    /// A signed number of 128 bits; what does not fit has no value.
    Integer,
}

/// From `min` to `max`, both included. Ranges of Bits are of non-negative numbers.
#[derive(Clone, Copy, Debug, PartialEq, Eq, Hash)]
pub struct Range {
    pub min: i128,
    pub max: i128,
}

impl Range {
    /// The range of one value.
    pub fn singleton(value: i128) -> Self {
        Self {
            min: value,
            max: value,
        }
    }

    /// Is the value in the range?
    pub fn contains(self, value: i128) -> bool {
        self.min <= value && value <= self.max
    }
}

/// An operator on one value. A width is at most 128.
#[derive(Clone, Copy, Debug, PartialEq, Eq, Hash)]
pub enum Unary {
    BoolNot,
    BitNot,
    Negate,
    Truncate(u16),
    SignExtend(u16),
    LeadingZeros(u16),
    TrailingZeros(u16),
}

/// An operator on two values.
#[derive(Clone, Copy, Debug, PartialEq, Eq, Hash)]
pub enum Binary {
    Add,
    Sub,
    Mul,
    And,
    Or,
    Xor,
    ShiftLeft,
    ShiftRight,
    ArithmeticShiftRight,
    Equal,
    NotEqual,
    LessSigned,
    LessUnsigned,
    LessEqualSigned,
    LessEqualUnsigned,
    DivideSigned,
    RemainderSigned,
    DivideUnsigned,
    RemainderUnsigned,
}

/// What a node is.
#[derive(Clone, Debug, PartialEq, Eq, Hash)]
pub enum Operation {
    Constant(u128),
    Input(InputId),
    /// The value of its operand, with a range that a guard showed, or as a value of another type.
    Refine(ScalarId),
    /// Made once by an event outside the graph.
    Effect(usize),
    Unary(Unary, ScalarId),
    Binary(Binary, ScalarId, ScalarId),
    Slice {
        value: ScalarId,
        offset: u16,
        width: u16,
    },
    Concat {
        high: ScalarId,
        low: ScalarId,
        low_width: u16,
    },
}

/// A node.
#[derive(Clone, Debug, PartialEq, Eq, Hash)]
pub struct Scalar {
    pub ty: ScalarType,
    pub range: Option<Range>,
    pub operation: Operation,
}

const BOOL: u64 = 0;
const BITS: u64 = 1;
const INTEGER: u64 = 2;

const FIRST_UNARY: u64 = 10;
const FIRST_BINARY: u64 = 20;

/// In the order of their codes, from 20 on.
const BINARIES: [Binary; 19] = [
    Binary::Add,
    Binary::Sub,
    Binary::Mul,
    Binary::And,
    Binary::Or,
    Binary::Xor,
    Binary::ShiftLeft,
    Binary::ShiftRight,
    Binary::ArithmeticShiftRight,
    Binary::Equal,
    Binary::NotEqual,
    Binary::LessSigned,
    Binary::LessUnsigned,
    Binary::LessEqualSigned,
    Binary::LessEqualUnsigned,
    Binary::DivideSigned,
    Binary::RemainderSigned,
    Binary::DivideUnsigned,
    Binary::RemainderUnsigned,
];

impl ScalarType {
    /// Its code and its width.
    pub(crate) fn code(self) -> (u64, u64) {
        match self {
            ScalarType::Bool => (BOOL, 0),
            ScalarType::Bits(width) => (BITS, width.into()),
            ScalarType::Integer => (INTEGER, 0),
        }
    }

    /// The type that a code and a width of docs/CALLS.md name.
    pub fn from_code(code: u64, width: u64) -> Option<Self> {
        match (code, width) {
            (BOOL, 0) => Some(ScalarType::Bool),
            (BITS, width) => Some(ScalarType::Bits(width.try_into().ok()?)),
            (INTEGER, 0) => Some(ScalarType::Integer),
            _ => None,
        }
    }
}

impl Unary {
    /// Its code and its parameter.
    pub(crate) fn code(self) -> (u64, u64) {
        let (place, width) = match self {
            Unary::BoolNot => (0, 0),
            Unary::BitNot => (1, 0),
            Unary::Negate => (2, 0),
            Unary::Truncate(width) => (3, width),
            Unary::SignExtend(width) => (4, width),
            Unary::LeadingZeros(width) => (5, width),
            Unary::TrailingZeros(width) => (6, width),
        };
        (FIRST_UNARY + place, width.into())
    }

    /// The operator that a code and a parameter of docs/CALLS.md name.
    pub fn from_code(code: u64, parameter: u64) -> Option<Self> {
        let width = parameter.try_into().ok()?;
        match (code.checked_sub(FIRST_UNARY)?, width) {
            (0, 0) => Some(Unary::BoolNot),
            (1, 0) => Some(Unary::BitNot),
            (2, 0) => Some(Unary::Negate),
            (3, width) => Some(Unary::Truncate(width)),
            (4, width) => Some(Unary::SignExtend(width)),
            (5, width) => Some(Unary::LeadingZeros(width)),
            (6, width) => Some(Unary::TrailingZeros(width)),
            _ => None,
        }
    }
}

impl Binary {
    pub(crate) fn code(self) -> u64 {
        FIRST_BINARY + self as u64
    }

    /// The operator that a code of docs/CALLS.md names.
    ///
    /// ```
    /// use scalars::Binary;
    ///
    /// assert_eq!(Binary::from_code(20), Some(Binary::Add));
    /// assert_eq!(Binary::from_code(39), None);
    /// ```
    pub fn from_code(code: u64) -> Option<Self> {
        let place = usize::try_from(code.checked_sub(FIRST_BINARY)?).ok()?;
        BINARIES.get(place).copied()
    }
}

/// The words of a node.
pub(crate) const WORDS: usize = 12;
const RANGE: usize = 2;
const MIN: usize = 3;
const MAX: usize = 5;
const OPERATION: usize = 7;
const X: usize = 8;
const Y: usize = 9;
const Z: usize = 10;
const ALIAS: usize = 11;

const CONSTANT: u64 = 0;
const INPUT: u64 = 1;
const REFINE: u64 = 2;
const EFFECT: u64 = 3;
const SLICE: u64 = 4;
const CONCAT: u64 = 5;

/// The low and the high half of a number.
pub(crate) fn halves(value: u128) -> (u64, u64) {
    (value as u64, (value >> 64) as u64)
}

/// The number of a low and a high half.
pub(crate) fn joined(low: u64, high: u64) -> u128 {
    u128::from(high) << 64 | u128::from(low)
}

impl Operation {
    fn of(words: &[u64; WORDS]) -> Option<Self> {
        let (x, y) = (words[X] as usize, words[Y] as usize);
        Some(match words[OPERATION] {
            CONSTANT => Operation::Constant(joined(words[X], words[Y])),
            INPUT => Operation::Input(x),
            REFINE => Operation::Refine(x),
            EFFECT => Operation::Effect(x),
            SLICE => Operation::Slice {
                value: x,
                offset: words[Y] as u16,
                width: words[Z] as u16,
            },
            CONCAT => Operation::Concat {
                high: x,
                low: y,
                low_width: words[Z] as u16,
            },
            code if code < FIRST_BINARY => Operation::Unary(Unary::from_code(code, words[Z])?, x),
            code => Operation::Binary(Binary::from_code(code)?, x, y),
        })
    }
}

impl Scalar {
    /// The node of these words, which are a graph's: their codes name something.
    pub(crate) fn of(words: &[u64; WORDS]) -> Self {
        let range = (words[RANGE] == 1).then(|| Range {
            min: joined(words[MIN], words[MIN + 1]) as i128,
            max: joined(words[MAX], words[MAX + 1]) as i128,
        });
        Scalar {
            ty: ScalarType::from_code(words[0], words[1]).expect("a type"),
            range,
            operation: Operation::of(words).expect("an operation"),
        }
    }
}

/// The node that stands for the one of these words.
pub(crate) fn alias_of(words: &[u64; WORDS]) -> Option<ScalarId> {
    words[ALIAS].checked_sub(1).map(|id| id as usize)
}

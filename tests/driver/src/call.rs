// The calls and their answers.
use crate::guard_list::GuardList;
use crate::native::{Binary, Range, ScalarType, Unary};
use crate::operators::{self, BINARY_CODE, UNARY_CODE};
use crate::words::WORDS;

// A type by its code and width, as a region has it.
#[derive(Clone, Copy, Debug, PartialEq, Eq)]
pub struct TypeCode {
    pub code: u64,
    pub width: u64,
}

#[derive(Clone, Copy, Debug)]
pub enum Call {
    Constant {
        ty: TypeCode,
        value: u128,
    },
    Input {
        number: u64,
        ty: TypeCode,
        range: Option<Range>,
    },
    Effect {
        number: u64,
        ty: TypeCode,
    },
    // Operators by their codes.
    Unary {
        ty: TypeCode,
        op: u64,
        parameter: u64,
        id: u64,
    },
    Binary {
        ty: TypeCode,
        op: u64,
        left: u64,
        right: u64,
    },
    Slice {
        id: u64,
        offset: u64,
        width: u64,
    },
    Concat {
        high: u64,
        low: u64,
        low_width: u64,
        width: u64,
    },
    UnsignedRange {
        id: u64,
        low: u128,
        high: u128,
    },
    // `room` is the number of words lent for the value.
    Literal {
        id: u64,
        room: usize,
    },
    Resolve {
        id: u64,
    },
    IsGraph,
    // What is expected, and whether 64 bits suffice, by 0 and 1.
    AssumeGuard {
        condition: u64,
        expected: u64,
    },
    // `room` is the number of words lent for the guard.
    Guard {
        condition: u64,
        expected: u64,
        room: usize,
    },
    // It looks at no region.
    Matches {
        op: u64,
        expected: u64,
        host64: u64,
        left: u128,
        right: u128,
    },
    // `room` is the number of words lent for the node's.
    Node {
        id: u64,
        room: usize,
    },
    // These look at no region. `room` is the number of words lent for the value.
    EvaluateUnary {
        op: u64,
        parameter: u64,
        value: u128,
        room: usize,
    },
    EvaluateBinary {
        op: u64,
        ty: TypeCode,
        left: u128,
        right: u128,
        room: usize,
    },
    Mask {
        width: u64,
        room: usize,
    },
}

// The number of words of a value, low half first.
pub const VALUE_WORDS: usize = 2;

// The number of words of a guard: the operator's code, both ids, and what is expected and whether 64 bits suffice.
pub const GUARD_WORDS: usize = 5;

#[derive(Clone, Copy, Debug, PartialEq, Eq)]
pub enum Answer {
    Id(u64),
    Value(u128),
    None,
    Refused(u64),
    Is(bool),
    // The nodes that a retain left.
    Kept(u64),
    // The number of the mark that was set.
    Mark(u64),
    // A guard is assumed, or a mark returned to.
    Done,
    Guard([u64; GUARD_WORDS]),
    Node([u64; WORDS]),
    // The lent words have another number than what was to be written.
    WrongLength,
    // A lent word outside the region was changed that had to stay.
    Spoilt,
}

// A call of the library with its words at hand, as a program that is linked with it makes it.
#[derive(Clone, Copy)]
pub enum Ready {
    Two(
        unsafe extern "C" fn(*mut u64, usize, u64, u64) -> u64,
        [u64; 2],
    ),
    Three(
        unsafe extern "C" fn(*mut u64, usize, u64, u64, u64) -> u64,
        [u64; 3],
    ),
    Four(
        unsafe extern "C" fn(*mut u64, usize, u64, u64, u64, u64) -> u64,
        [u64; 4],
    ),
    Five(
        unsafe extern "C" fn(*mut u64, usize, u64, u64, u64, u64, u64) -> u64,
        [u64; 5],
    ),
    Eight(
        unsafe extern "C" fn(*mut u64, usize, u64, u64, u64, u64, u64, u64, u64, u64) -> u64,
        [u64; 8],
    ),
}

impl Ready {
    // SAFETY: for a function that does not ask question 1, the caller made the region a graph. The slice is passed whole.
    pub unsafe fn make(self, region: &mut [u64]) -> u64 {
        let (g, len) = (region.as_mut_ptr(), region.len());
        unsafe {
            match self {
                Ready::Two(call, [a, b]) => call(g, len, a, b),
                Ready::Three(call, [a, b, c]) => call(g, len, a, b, c),
                Ready::Four(call, [a, b, c, d]) => call(g, len, a, b, c, d),
                Ready::Five(call, [a, b, c, d, e]) => call(g, len, a, b, c, d, e),
                Ready::Eight(call, [a, b, c, d, e, f, h, i]) => {
                    call(g, len, a, b, c, d, e, f, h, i)
                }
            }
        }
    }
}

// A call about marks, on the graph's region and the marks'. A retain is handed both too.
#[derive(Clone, Copy, Debug)]
pub enum Marking {
    IsMarked,
    Mark,
    ReturnTo(u64),
}

// The library's function for lists of guards: the region, the conditions and the answers.
pub type ListFunction =
    unsafe extern "C" fn(*mut u64, usize, *const u64, usize, *const u64, usize) -> u64;

// One side of the comparison.
pub trait Side {
    // The calls that follow are on this region, and no mark stands.
    fn start(&mut self, _: &[u64]) {}

    // Answers a call on the region, and leaves the region as the call does.
    fn call(&mut self, region: &mut [u64], call: &Call) -> Answer;

    // A call about marks on both regions, where the side has them.
    fn marking(&mut self, _: &mut [u64], _: &mut [u64], _: Marking) -> Option<Answer> {
        None
    }

    // A retain on both regions, with the keep list and the lent mapping, where the side has it.
    fn retain(&mut self, _: &mut [u64], _: &mut [u64], _: &[u8], _: &mut [u64]) -> Option<Answer> {
        None
    }

    // A list of guards on the region, where the side has them.
    fn guards(&mut self, _: &mut [u64], _: &GuardList) -> Option<Answer> {
        None
    }

    // The function that takes one, where the side is the library.
    fn list_function(&self) -> Option<ListFunction> {
        None
    }

    // The call with its words at hand, where the side is the library and the call changes a region.
    fn ready(&self, _: &Call) -> Option<Ready> {
        None
    }

    // Can it be asked this? What only numbers can say, as a type that there is not, is left out where it can't.
    fn takes(&self, call: &Call) -> bool;
}

// A width or an offset as the original has it. A width past 16 bits is refused as any above 128, and an offset past
// them is as any from 128 on.
pub fn short(number: u64) -> u16 {
    u16::try_from(number).unwrap_or(u16::MAX)
}

// The operator of the code, if there is one. Those without a width have the parameter 0.
pub fn unary_of(code: u64, parameter: u64) -> Option<Unary> {
    let place = code.checked_sub(UNARY_CODE.into())?;
    let operator = *operators::unary(short(parameter)).get(usize::try_from(place).ok()?)?;
    let is_plain = matches!(operator, Unary::BoolNot | Unary::BitNot | Unary::Negate);
    (!is_plain || parameter == 0).then_some(operator)
}

pub fn binary_of(code: u64) -> Option<Binary> {
    let place = code.checked_sub(BINARY_CODE.into())?;
    let operator = operators::BINARY.get(usize::try_from(place).ok()?)?;
    Some(*operator)
}

impl TypeCode {
    // The type, if there is one.
    pub fn ty(self) -> Option<ScalarType> {
        match (self.code, self.width) {
            (0, 0) => Some(ScalarType::Bool),
            (1, width) => Some(ScalarType::Bits(short(width))),
            (2, 0) => Some(ScalarType::Integer),
            _ => None,
        }
    }
}

impl From<ScalarType> for TypeCode {
    fn from(ty: ScalarType) -> Self {
        let (code, width) = match ty {
            ScalarType::Bool => (0, 0),
            ScalarType::Bits(width) => (1, width.into()),
            ScalarType::Integer => (2, 0),
        };
        TypeCode { code, width }
    }
}

// The kinds of calls by their names. The last four are called with any numbers alone.
pub const LISTED: usize = 14;
pub const KINDS: [&str; LISTED + 4] = [
    "constant",
    "input",
    "effect",
    "unary",
    "binary",
    "slice",
    "concat",
    "unsigned range",
    "literal",
    "resolve",
    "is graph",
    "assume guard",
    "guard",
    "matches",
    "node",
    "evaluate unary",
    "evaluate binary",
    "mask",
];

impl Call {
    pub fn kind(&self) -> &'static str {
        let place = match self {
            Call::Constant { .. } => 0,
            Call::Input { .. } => 1,
            Call::Effect { .. } => 2,
            Call::Unary { .. } => 3,
            Call::Binary { .. } => 4,
            Call::Slice { .. } => 5,
            Call::Concat { .. } => 6,
            Call::UnsignedRange { .. } => 7,
            Call::Literal { .. } => 8,
            Call::Resolve { .. } => 9,
            Call::IsGraph => 10,
            Call::AssumeGuard { .. } => 11,
            Call::Guard { .. } => 12,
            Call::Matches { .. } => 13,
            Call::Node { .. } => 14,
            Call::EvaluateUnary { .. } => 15,
            Call::EvaluateBinary { .. } => 16,
            Call::Mask { .. } => 17,
        };
        KINDS[place]
    }

    pub fn ty(&self) -> Option<TypeCode> {
        match *self {
            Call::Constant { ty, .. }
            | Call::Input { ty, .. }
            | Call::Effect { ty, .. }
            | Call::Unary { ty, .. }
            | Call::Binary { ty, .. }
            | Call::EvaluateBinary { ty, .. } => Some(ty),
            _ => None,
        }
    }

    // Does each code name something, and does no operator have a parameter that it does not take?
    pub fn is_named(&self) -> bool {
        let has_type = self.ty().is_none_or(|code| code.ty().is_some());
        has_type
            && match *self {
                Call::Unary { op, parameter, .. } | Call::EvaluateUnary { op, parameter, .. } => {
                    unary_of(op, parameter).is_some()
                }
                Call::Binary { op, .. } | Call::EvaluateBinary { op, .. } => {
                    binary_of(op).is_some()
                }
                Call::AssumeGuard { expected, .. } | Call::Guard { expected, .. } => expected <= 1,
                Call::Matches {
                    op,
                    expected,
                    host64,
                    ..
                } => binary_of(op).is_some() && expected <= 1 && host64 <= 1,
                _ => true,
            }
    }

    // Does it look at a region?
    pub fn has_region(&self) -> bool {
        !matches!(
            self,
            Call::Matches { .. }
                | Call::EvaluateUnary { .. }
                | Call::EvaluateBinary { .. }
                | Call::Mask { .. }
        )
    }

    // Has it a twin for a region that is known to be a graph?
    pub fn has_twin(&self) -> bool {
        self.has_region() && !matches!(self, Call::IsGraph)
    }

    // The widths that it names, that of the type first, whatever its code is.
    pub fn widths(&self) -> [u64; 3] {
        let of_type = self.ty().map_or(0, |ty| ty.width);
        match *self {
            Call::Unary { parameter, .. } | Call::EvaluateUnary { parameter, .. } => {
                [of_type, parameter, 0]
            }
            Call::Slice { width, .. } | Call::Mask { width, .. } => [of_type, width, 0],
            Call::Concat {
                low_width, width, ..
            } => [of_type, low_width, width],
            _ => [of_type, 0, 0],
        }
    }

    // The widths beside the type's. An operator that takes none has one only by numbers.
    pub fn widths_mut(&mut self, has_numbers: bool) -> Vec<&mut u64> {
        match self {
            Call::Unary { op, parameter, .. } if *op > 12 || has_numbers => vec![parameter],
            Call::Slice { width, .. } => vec![width],
            Call::Concat {
                low_width, width, ..
            } => vec![low_width, width],
            _ => vec![],
        }
    }

    pub fn ids_mut(&mut self) -> Vec<&mut u64> {
        match self {
            Call::Literal { id, .. }
            | Call::Resolve { id }
            | Call::Node { id, .. }
            | Call::Unary { id, .. }
            | Call::Slice { id, .. }
            | Call::UnsignedRange { id, .. } => vec![id],
            Call::AssumeGuard { condition, .. } | Call::Guard { condition, .. } => vec![condition],
            Call::Binary { left, right, .. } => vec![left, right],
            Call::Concat { high, low, .. } => vec![high, low],
            _ => vec![],
        }
    }

    // The numbers of a call with a type: the type's two first.
    fn typed_numbers_mut(&mut self) -> Option<Vec<&mut u64>> {
        let (ty, others) = match self {
            Call::Constant { ty, .. } => (ty, vec![]),
            Call::Input { number, ty, .. } | Call::Effect { number, ty } => (ty, vec![number]),
            Call::Unary {
                ty,
                op,
                parameter,
                id,
            } => (ty, vec![op, parameter, id]),
            Call::Binary {
                ty,
                op,
                left,
                right,
            } => (ty, vec![op, left, right]),
            Call::EvaluateBinary { op, ty, .. } => (ty, vec![op]),
            _ => return None,
        };
        let TypeCode { code, width } = ty;
        Some([code, width].into_iter().chain(others).collect())
    }

    // Every number but the values: its codes, widths, parameters, ids and truth values.
    pub fn numbers_mut(&mut self) -> Vec<&mut u64> {
        if self.ty().is_some() {
            return self.typed_numbers_mut().unwrap_or_default();
        }
        match self {
            Call::EvaluateUnary { op, parameter, .. } => vec![op, parameter],
            Call::Mask { width, .. } => vec![width],
            Call::Slice { id, offset, width } => vec![id, offset, width],
            Call::Concat {
                high,
                low,
                low_width,
                width,
            } => vec![high, low, low_width, width],
            Call::AssumeGuard {
                condition,
                expected,
            }
            | Call::Guard {
                condition,
                expected,
                ..
            } => vec![condition, expected],
            Call::Matches {
                op,
                expected,
                host64,
                ..
            } => vec![op, expected, host64],
            _ => self.ids_mut(),
        }
    }

    // The number of lent words, where it lends some.
    pub fn room_mut(&mut self) -> Option<&mut usize> {
        match self {
            Call::Literal { room, .. }
            | Call::Guard { room, .. }
            | Call::Node { room, .. }
            | Call::EvaluateUnary { room, .. }
            | Call::EvaluateBinary { room, .. }
            | Call::Mask { room, .. } => Some(room),
            _ => None,
        }
    }

    pub fn ids(mut self) -> Vec<u64> {
        self.ids_mut().into_iter().map(|id| *id).collect()
    }
}

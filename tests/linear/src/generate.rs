// Random graphs, grown by the same calls on the original and on the binding.
use crate::plain;
use crate::splitmix::Random;
use scalars::{Binary, Refusal, ScalarType, Unary};

// The most calls for a graph.
const CALLS: u64 = 60;

const WIDTHS: [u16; 8] = [1, 8, 16, 32, 63, 64, 65, 128];

const BINARIES: [(Binary, plain::Binary); 19] = [
    (Binary::Add, plain::Binary::Add),
    (Binary::Sub, plain::Binary::Sub),
    (Binary::Mul, plain::Binary::Mul),
    (Binary::And, plain::Binary::And),
    (Binary::Or, plain::Binary::Or),
    (Binary::Xor, plain::Binary::Xor),
    (Binary::ShiftLeft, plain::Binary::ShiftLeft),
    (Binary::ShiftRight, plain::Binary::ShiftRight),
    (
        Binary::ArithmeticShiftRight,
        plain::Binary::ArithmeticShiftRight,
    ),
    (Binary::Equal, plain::Binary::Equal),
    (Binary::NotEqual, plain::Binary::NotEqual),
    (Binary::LessSigned, plain::Binary::LessSigned),
    (Binary::LessUnsigned, plain::Binary::LessUnsigned),
    (Binary::LessEqualSigned, plain::Binary::LessEqualSigned),
    (Binary::LessEqualUnsigned, plain::Binary::LessEqualUnsigned),
    (Binary::DivideSigned, plain::Binary::DivideSigned),
    (Binary::RemainderSigned, plain::Binary::RemainderSigned),
    (Binary::DivideUnsigned, plain::Binary::DivideUnsigned),
    (Binary::RemainderUnsigned, plain::Binary::RemainderUnsigned),
];
// The comparisons among them.
const FIRST_COMPARISON: usize = 9;
const COMPARISONS: usize = 6;

fn plain_type(ty: ScalarType) -> plain::ScalarType {
    match ty {
        ScalarType::Bool => plain::ScalarType::Bool,
        ScalarType::Bits(width) => plain::ScalarType::Bits(width),
        ScalarType::Integer => plain::ScalarType::Integer,
    }
}

// The two graphs, and where the random numbers come from.
pub struct Pair {
    pub original: plain::Graph,
    pub bound: scalars::Graph,
    pub calls: u64,
    pub refused: u64,
    random: Random,
}

impl Pair {
    pub fn new(random: Random) -> Self {
        Pair {
            original: plain::Graph::default(),
            bound: scalars::Graph::default(),
            calls: 0,
            refused: 0,
            random,
        }
    }

    fn below(&mut self, end: u64) -> u64 {
        self.random.next() % end
    }

    // A number, often a small one.
    pub fn value(&mut self) -> u128 {
        let bits = self.random.bits();
        match self.below(4) {
            0 => bits,
            1 => bits >> 64,
            2 => bits >> 112,
            _ => bits >> 125,
        }
    }

    fn ty(&mut self) -> ScalarType {
        match self.below(4) {
            0 => ScalarType::Bool,
            1 => ScalarType::Integer,
            _ => ScalarType::Bits(WIDTHS[self.below(8) as usize]),
        }
    }

    fn id(&mut self) -> usize {
        let count = self.bound.scalars.len() as u64;
        self.below(count) as usize
    }

    // A node, of the same type as another if some tries find one.
    fn id_like(&mut self, id: usize) -> usize {
        let ty = self.bound.scalars[id].ty;
        let tries = [self.id(), self.id(), self.id(), self.id(), self.id()];
        let found = tries
            .into_iter()
            .find(|other| self.bound.scalars[*other].ty == ty);
        found.unwrap_or(tries[0])
    }

    // The type of a node, or now and then any.
    fn like(&mut self, id: usize) -> ScalarType {
        match self.below(8) {
            0 => self.ty(),
            _ => self.bound.scalars[id].ty,
        }
    }

    // Compares a call's answer on the original with the binding's, unless it was refused.
    fn same<T: PartialEq + std::fmt::Debug>(
        &mut self,
        found: Result<T, Refusal>,
        call: impl FnOnce(&mut plain::Graph) -> T,
    ) -> Result<(), String> {
        let Ok(found) = found else {
            self.refused += 1;
            return Ok(());
        };
        self.calls += 1;
        let right = call(&mut self.original);
        if right == found {
            return Ok(());
        }
        Err(format!("original {right:?}, binding {found:?}"))
    }

    fn leaf(&mut self) -> Result<(), String> {
        let (ty, number, value) = (self.ty(), self.below(6) as usize, self.value());
        let plain = plain_type(ty);
        match self.below(3) {
            0 => {
                let found = self.bound.try_constant(ty, value);
                self.same(found, |graph| graph.constant(plain, value))
            }
            1 => self.input(number, ty),
            _ => {
                let found = self.bound.try_effect(number, ty);
                self.same(found, |graph| graph.effect(number, plain))
            }
        }
    }

    // An input, now and then with a range.
    fn input(&mut self, number: usize, ty: ScalarType) -> Result<(), String> {
        let (a, b) = (self.below(300) as i128, self.below(300) as i128);
        let (min, max) = (a.min(b), a.max(b));
        let is_ranged = self.below(2) == 0;
        let range = is_ranged.then_some(scalars::Range { min, max });
        let found = self.bound.try_input(number, ty, range);
        let range = is_ranged.then_some(plain::Range { min, max });
        self.same(found, |graph| graph.input(number, plain_type(ty), range))
    }

    fn unary(&mut self) -> Result<(), String> {
        let (id, width) = (self.id(), WIDTHS[self.below(8) as usize]);
        let like = self.like(id);
        let (operator, plain, ty) = match self.below(7) {
            0 => (Unary::BoolNot, plain::Unary::BoolNot, ScalarType::Bool),
            1 => (Unary::BitNot, plain::Unary::BitNot, like),
            2 => (Unary::Negate, plain::Unary::Negate, like),
            3 => (
                Unary::Truncate(width),
                plain::Unary::Truncate(width),
                ScalarType::Bits(width),
            ),
            4 => (
                Unary::SignExtend(width),
                plain::Unary::SignExtend(width),
                like,
            ),
            5 => (
                Unary::LeadingZeros(width),
                plain::Unary::LeadingZeros(width),
                like,
            ),
            _ => (
                Unary::TrailingZeros(width),
                plain::Unary::TrailingZeros(width),
                like,
            ),
        };
        let found = self.bound.try_unary(ty, operator, id);
        self.same(found, |graph| graph.unary(plain_type(ty), plain, id))
    }

    fn binary(&mut self) -> Result<(), String> {
        let left = self.id();
        let right = self.id_like(left);
        let place = self.below(19) as usize;
        let (operator, plain) = BINARIES[place];
        let is_comparison = (FIRST_COMPARISON..FIRST_COMPARISON + COMPARISONS).contains(&place);
        let ty = if is_comparison {
            ScalarType::Bool
        } else {
            self.like(left)
        };
        let found = self.bound.try_binary(ty, operator, left, right);
        self.same(found, |graph| {
            graph.binary(plain_type(ty), plain, left, right)
        })
    }

    fn field(&mut self) -> Result<(), String> {
        let (id, other) = (self.id(), self.id());
        let (offset, width) = (self.below(70) as u16, 1 + self.below(64) as u16);
        match self.below(3) {
            0 => {
                let found = self.bound.try_slice(id, offset, width);
                self.same(found, |graph| graph.slice(id, offset, width))
            }
            1 => self.concat(id, other),
            _ => {
                let (low, high) = (self.value(), self.value());
                let found = self.bound.try_unsigned_range(id, low, high);
                self.same(found, |graph| graph.unsigned_range(id, low, high))
            }
        }
    }

    // Of the widths that the nodes have, if they are Bits.
    fn concat(&mut self, high: usize, low: usize) -> Result<(), String> {
        let [upper, lower] = [high, low].map(|id| match self.bound.scalars[id].ty {
            ScalarType::Bits(width) => width,
            _ => 1,
        });
        let width = upper + lower;
        let found = self.bound.try_concat(high, low, lower, width);
        self.same(found, |graph| graph.concat(high, low, lower, width))
    }

    fn guard(&mut self) -> Result<(), String> {
        let (id, expected) = (self.id(), self.below(2) == 0);
        let found = self.bound.try_assume_guard(id, expected);
        self.same(found, |graph| graph.assume_guard(id, expected))?;
        let count = self.bound.scalars.len();
        match (0..count).find(|id| self.original.resolve(*id) != self.bound.resolve(*id)) {
            Some(id) => Err(format!("node {id} resolves to another node")),
            None => Ok(()),
        }
    }

    // Keeps the nodes with the operands of kept ones, from the last down.
    fn retain(&mut self) -> Result<(), String> {
        let mut keep: Vec<bool> = self
            .bound
            .scalars
            .iter()
            .map(|_| self.random.next().is_multiple_of(2))
            .collect();
        for id in (0..keep.len()).rev() {
            if keep[id] {
                operands(&self.bound.scalars[id].operation)
                    .into_iter()
                    .flatten()
                    .for_each(|operand| keep[operand] = true);
            }
        }
        let found = self.bound.try_retain(&keep);
        self.same(found, |graph| graph.retain(&keep))
    }

    // Grows both graphs by the same calls, and compares their nodes.
    pub fn grow(&mut self) -> Result<(), String> {
        self.leaf()?;
        self.leaf()?;
        for _ in 0..self.below(CALLS) {
            match self.below(24) {
                _ if self.bound.scalars.is_empty() => self.leaf()?,
                0..4 => self.leaf()?,
                4..8 => self.unary()?,
                8..16 => self.binary()?,
                16..21 => self.field()?,
                21..23 => self.guard()?,
                _ if self.below(8) == 0 => self.retain()?,
                _ => {}
            }
        }
        let [right, found] = [
            format!("{:?}", self.original.scalars),
            format!("{:?}", self.bound.scalars),
        ];
        if right == found {
            return Ok(());
        }
        Err(format!("nodes: {right}\n{found}"))
    }
}

fn operands(operation: &scalars::Operation) -> [Option<usize>; 2] {
    use scalars::Operation::{Binary, Concat, Constant, Effect, Input, Refine, Slice, Unary};
    match *operation {
        Constant(_) | Input(_) | Effect(_) => [None, None],
        Refine(value) | Unary(_, value) | Slice { value, .. } => [Some(value), None],
        Binary(_, a, b)
        | Concat {
            high: a, low: b, ..
        } => [Some(a), Some(b)],
    }
}

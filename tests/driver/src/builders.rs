// Random calls of the builders. Most have operands of fitting types; some fail a question.
use crate::call::{Call, TypeCode};
use crate::generate::{Source, Spread, mask};
use crate::native::{Operation, Scalar, ScalarType};
use ScalarType::{Bits, Bool, Integer};

const SHIFTS: std::ops::RangeInclusive<u64> = 26..=28;
pub const COMPARISONS: std::ops::RangeInclusive<u64> = 29..=34;

const OFFSETS: [u64; 12] = [1, 4, 7, 8, 15, 16, 63, 64, 120, 127, 128, 65535];

// Operators by their codes; those with more folds stand there more often.
const OPERATORS: [u64; 30] = [
    20, 20, 20, 21, 21, 22, 23, 23, 23, 24, 24, 25, 25, 26, 26, 27, 27, 28, 29, 29, 30, 30, 31, 32,
    33, 34, 35, 36, 37, 38,
];

pub fn width_of(ty: ScalarType) -> u64 {
    TypeCode::from(ty).width
}

impl Source {
    // An odd node for which this holds.
    fn find_odd(&mut self, fits: impl Fn(usize) -> bool) -> Option<u64> {
        if self.odd.is_empty() || !self.random.once_in(3) {
            return None;
        }
        let id = self.random.pick(&self.odd);
        fits(id).then_some(id as u64)
    }

    // A node for which this holds, if one is found. The last nodes, and odd ones, are chosen more often.
    pub fn find(&mut self, scalars: &[Scalar], fits: impl Fn(&Scalar) -> bool) -> Option<u64> {
        let count = scalars.len();
        if count == 0 {
            return None;
        }
        let found = self.find_odd(|id| scalars.get(id).is_some_and(&fits));
        if found.is_some() {
            return found;
        }
        for _ in 0..6 {
            let near = if self.random.once_in(2) { 12 } else { count };
            let id = count - 1 - self.random.below(near.min(count));
            if fits(&scalars[id]) {
                return Some(id as u64);
            }
        }
        let start = self.random.below(count);
        let ids = (start..count).chain(0..start);
        ids.into_iter()
            .find(|id| fits(&scalars[*id]))
            .map(|id| id as u64)
    }

    // A node of the type, and else any number.
    pub fn of_type(&mut self, scalars: &[Scalar], ty: ScalarType) -> u64 {
        let found = self.find(scalars, |scalar| scalar.ty == ty);
        found.unwrap_or_else(|| self.id(scalars.len() as u64))
    }

    pub fn literal_of(&mut self, scalars: &[Scalar], ty: ScalarType) -> Option<u64> {
        self.find(scalars, |scalar| {
            scalar.ty == ty && matches!(scalar.operation, Operation::Constant(_))
        })
    }

    fn of_bits(&mut self, scalars: &[Scalar]) -> (u64, ScalarType) {
        let found = self.find(scalars, |scalar| matches!(scalar.ty, Bits(_)));
        match found {
            Some(id) => (id, scalars[id as usize].ty),
            None => (self.id(scalars.len() as u64), Bits(self.width())),
        }
    }

    fn any(&mut self, scalars: &[Scalar]) -> u64 {
        let found = self.find(scalars, |_| true);
        found.unwrap_or_else(|| self.id(0))
    }

    // A width that may be past 128 and, for numbers alone, past 16 bits.
    fn wrong_width(&mut self) -> u64 {
        if self.has_numbers && self.random.once_in(3) {
            return self.random.pick(&[1 << 16, (1 << 16) + 8, u64::MAX]);
        }
        self.random.pick(&[0, 1, 8, 127, 128, 129, 255, 65535])
    }

    fn wrong_type(&mut self) -> TypeCode {
        if self.has_numbers && self.random.once_in(3) {
            let code = self.random.pick(&[0, 2, 3, 1 << 32, u64::MAX]);
            return TypeCode { code, width: 1 };
        }
        let width = self.wrong_width();
        self.random
            .pick(&[Bool.into(), Integer.into(), TypeCode { code: 1, width }])
    }

    fn wrong_operator(&mut self, first: u64, last: u64) -> u64 {
        if self.has_numbers && self.random.once_in(2) {
            return self.random.pick(&[0, 9, 17, 19, 39, 1 << 32, u64::MAX]);
        }
        first + self.random.next() % (last - first + 1)
    }

    // Another type or operator. Without numbers an operator keeps to the parameters that it takes.
    fn change_code(&mut self, call: &mut Call) {
        match call {
            Call::Unary { ty, .. } | Call::Binary { ty, .. } if self.random.once_in(2) => {
                *ty = self.wrong_type();
            }
            Call::Unary { op, parameter, .. } => {
                *op = self.wrong_operator(10, 16);
                if !self.has_numbers && *op < 13 {
                    *parameter = 0;
                }
            }
            Call::Binary { op, .. } => *op = self.wrong_operator(20, 38),
            Call::Slice { offset, .. } if self.has_numbers => {
                *offset = u64::MAX - self.random.next() % 3;
            }
            _ => {}
        }
    }

    fn put_in_one(&mut self, mut places: Vec<&mut u64>, number: u64) {
        if !places.is_empty() {
            let place = self.random.below(places.len());
            *places[place] = number;
        }
    }

    // The call with one of its numbers changed, so that it may fail a question.
    fn spoilt(&mut self, mut call: Call, count: u64) -> Call {
        match self.random.below(3) {
            0 => {
                let id = self.id(count);
                self.put_in_one(call.ids_mut(), id);
            }
            1 => {
                let width = self.wrong_width();
                self.put_in_one(call.widths_mut(self.has_numbers), width);
            }
            _ => self.change_code(&mut call),
        }
        call
    }

    fn perhaps_spoilt(&mut self, call: Call, scalars: &[Scalar]) -> Call {
        let count = scalars.len() as u64;
        if !self.random.once_in(24) {
            return call;
        }
        let spoilt = self.spoilt(call, count);
        if self.random.once_in(3) {
            self.spoilt(spoilt, count)
        } else {
            spoilt
        }
    }

    pub fn unary(&mut self, scalars: &[Scalar]) -> Call {
        let op = self.random.pick(&[10, 11, 12, 13, 13, 13, 14, 14, 15, 16]);
        let (ty, parameter, id) = match op {
            10 => (Bool, 0, self.of_type(scalars, Bool)),
            11 => {
                let (id, ty) = self.of_bits(scalars);
                (ty, 0, id)
            }
            12 => (Integer, 0, self.of_type(scalars, Integer)),
            13 => {
                let width = self.width();
                (Bits(width), width.into(), self.any(scalars))
            }
            _ => {
                let (id, ty) = self.of_bits(scalars);
                let wide = self.width().max(width_of(ty) as u16);
                (self.random.pick(&[Integer, Bits(wide)]), width_of(ty), id)
            }
        };
        let call = Call::Unary {
            ty: ty.into(),
            op,
            parameter,
            id,
        };
        self.perhaps_spoilt(call, scalars)
    }

    // The right operand: often a constant, which is declared first if there is none.
    fn right(&mut self, scalars: &[Scalar], ty: ScalarType, left: u64) -> Result<u64, Call> {
        match self.random.below(10) {
            0 => Ok(left),
            1..4 => Ok(self.of_type(scalars, ty)),
            _ => self.literal_of(scalars, ty).ok_or_else(|| Call::Constant {
                ty: ty.into(),
                value: self.pattern(ty, Spread::Few),
            }),
        }
    }

    pub fn binary(&mut self, scalars: &[Scalar]) -> Call {
        let op = self.random.pick(&OPERATORS);
        let mut ty = self.known_type();
        if ty == Bool && (!(23..=34).contains(&op) || SHIFTS.contains(&op)) {
            ty = Integer;
        }
        let amount = if SHIFTS.contains(&op) && self.random.once_in(2) {
            Integer
        } else {
            ty
        };
        let left = self.of_type(scalars, ty);
        let right = match self.right(scalars, amount, left) {
            Ok(right) => right,
            Err(constant) => return constant,
        };
        let (left, right) = if amount == ty && self.random.once_in(6) {
            (right, left)
        } else {
            (left, right)
        };
        let result = if COMPARISONS.contains(&op) { Bool } else { ty };
        let call = Call::Binary {
            ty: result.into(),
            op,
            left,
            right,
        };
        self.perhaps_spoilt(call, scalars)
    }

    // Not the declaration of a constant for it.
    pub fn binary_itself(&mut self, scalars: &[Scalar]) -> Call {
        loop {
            let call = self.binary(scalars);
            if matches!(call, Call::Binary { .. }) {
                return call;
            }
        }
    }

    // Around the seams of the node, or anywhere.
    pub fn offset(&mut self, scalar: Option<&Scalar>) -> u64 {
        let seam = match scalar.map(|scalar| &scalar.operation) {
            Some(Operation::Concat { low_width, .. }) => u64::from(*low_width),
            Some(Operation::Slice { width, .. }) => u64::from(*width) / 2,
            _ => 0,
        };
        match self.random.below(6) {
            0..3 => 0,
            3 => seam,
            4 => (seam + self.random.next() % 9).saturating_sub(4),
            _ => self.random.pick(&OFFSETS),
        }
    }

    pub fn slice(&mut self, scalars: &[Scalar]) -> Call {
        let id = self.any(scalars);
        let offset = self.offset(scalars.get(id as usize));
        let width = match self.random.below(4) {
            0 => self.random.next() % 17,
            _ => self.width().into(),
        };
        let call = Call::Slice { id, offset, width };
        self.perhaps_spoilt(call, scalars)
    }

    pub fn concat(&mut self, scalars: &[Scalar]) -> Call {
        let (low, low_type) = self.of_bits(scalars);
        let low_width = width_of(low_type);
        let most = 128u64.saturating_sub(low_width);
        let high = self.find(
            scalars,
            |scalar| matches!(scalar.ty, Bits(width) if u64::from(width) <= most),
        );
        let high = high.unwrap_or_else(|| self.id(scalars.len() as u64));
        let high_width = scalars
            .get(high as usize)
            .map_or(8, |scalar| width_of(scalar.ty));
        let call = Call::Concat {
            high,
            low,
            low_width,
            width: low_width + high_width,
        };
        self.perhaps_spoilt(call, scalars)
    }

    pub fn unsigned_range(&mut self, scalars: &[Scalar]) -> Call {
        let (id, ty) = if self.random.once_in(10) {
            (self.any(scalars), Integer)
        } else {
            self.of_bits(scalars)
        };
        let top = mask(width_of(ty) as u16);
        let [a, b] = [0; 2].map(|_| match self.random.below(5) {
            0 => 0,
            1 => top,
            2 => self.random.pattern(),
            3 => self.random.pattern() & top,
            _ => self.random.below(20) as u128,
        });
        let (low, high) = match self.random.below(12) {
            0 => (a.max(b), a.min(b)),
            1 => (a, top.wrapping_add(1)),
            _ => (a.min(b), a.max(b)),
        };
        let call = Call::UnsignedRange { id, low, high };
        self.perhaps_spoilt(call, scalars)
    }

    pub fn builder(&mut self, scalars: &[Scalar]) -> Call {
        if self.random.once_in(12)
            && let Some(call) = self.same(scalars)
        {
            return call;
        }
        if self.random.once_in(4)
            && let Some(call) = self.chained(scalars)
        {
            return call;
        }
        match self.random.below(20) {
            0..4 => self.unary(scalars),
            4..13 => self.binary(scalars),
            13..16 => self.slice(scalars),
            16..19 => self.concat(scalars),
            _ => self.unsigned_range(scalars),
        }
    }
}

// Short lists of calls that lead to the folds; those that lead to guards are in guards.rs. A call of a plan can name
// the answers of those before it.
use crate::call::{Answer, Call};
use crate::generate::{Source, Spread, mask};
use crate::native::{Operation, Range, Scalar, ScalarType};
use ScalarType::{Bits, Bool, Integer};
use std::collections::VecDeque;

pub const ADD: u64 = 20;
pub const SUB: u64 = 21;
pub const AND: u64 = 23;
pub const OR: u64 = 24;
pub const XOR: u64 = 25;
pub const SHIFT_LEFT: u64 = 26;
pub const SHIFT_RIGHT: u64 = 27;
pub const EQUAL: u64 = 29;
pub const REMAINDER_UNSIGNED: u64 = 38;
pub const NEGATE: u64 = 12;
pub const TRUNCATE: u64 = 13;
pub const SIGN_EXTEND: u64 = 14;

// The id that stands for the first answer of a plan; the next one stands for the second.
const MADE: u64 = 1 << 40;

// The calls still to be put, and the ids that the ones before them answered.
#[derive(Default)]
pub struct Plan {
    calls: VecDeque<Call>,
    made: Vec<u64>,
    is_waiting: bool,
}

impl Plan {
    // An answer that is no id leaves 0 in its place.
    fn id(&self, id: u64) -> u64 {
        let place = id.wrapping_sub(MADE);
        match self.made.get(place as usize) {
            Some(made) => *made,
            None if place < 1 << 16 => 0,
            None => id,
        }
    }

    pub fn next(&mut self) -> Option<Call> {
        let mut call = self.calls.pop_front()?;
        for id in call.ids_mut() {
            *id = self.id(*id);
        }
        self.is_waiting = true;
        Some(call)
    }

    pub fn hear(&mut self, answer: Answer) {
        if !self.is_waiting {
            return;
        }
        self.is_waiting = false;
        self.made.push(match answer {
            Answer::Id(id) => id,
            _ => 0,
        });
    }

    fn put(calls: Vec<Call>) -> Self {
        Plan {
            calls: calls.into(),
            ..Plan::default()
        }
    }
}

// A plan in the making.
pub struct Draft<'a> {
    pub source: &'a mut Source,
    scalars: &'a [Scalar],
    calls: Vec<Call>,
}

impl Draft<'_> {
    pub fn call(&mut self, call: Call) -> u64 {
        self.calls.push(call);
        MADE + self.calls.len() as u64 - 1
    }

    pub fn constant(&mut self, ty: ScalarType, value: u128) -> u64 {
        let ty = ty.into();
        self.call(Call::Constant { ty, value })
    }

    pub fn input(&mut self, ty: ScalarType, range: Option<(i128, i128)>) -> u64 {
        let number = self.source.number(Spread::Few);
        let range = range.map(|(min, max)| Range { min, max });
        let ty = ty.into();
        self.call(Call::Input { number, ty, range })
    }

    pub fn unary(&mut self, ty: ScalarType, op: u64, parameter: u16, id: u64) -> u64 {
        self.call(Call::Unary {
            ty: ty.into(),
            op,
            parameter: parameter.into(),
            id,
        })
    }

    pub fn binary(&mut self, ty: ScalarType, op: u64, left: u64, right: u64) -> u64 {
        self.call(Call::Binary {
            ty: ty.into(),
            op,
            left,
            right,
        })
    }

    // With a constant on the right, or now and then on the left.
    pub fn with(&mut self, ty: ScalarType, op: u64, left: u64, value: u128) -> u64 {
        let right = self.constant(ty, value);
        if self.once_in(8) {
            self.binary(ty, op, right, left)
        } else {
            self.binary(ty, op, left, right)
        }
    }

    pub fn slice(&mut self, id: u64, offset: u16, width: u16) -> u64 {
        self.call(Call::Slice {
            id,
            offset: offset.into(),
            width: width.into(),
        })
    }

    fn concat(&mut self, high: u64, low: u64, low_width: u16, width: u16) -> u64 {
        self.call(Call::Concat {
            high,
            low,
            low_width: low_width.into(),
            width: width.into(),
        })
    }

    pub fn below(&mut self, limit: u16) -> u16 {
        self.source.random.below(usize::from(limit.max(1))) as u16
    }

    pub fn once_in(&mut self, times: usize) -> bool {
        self.source.random.once_in(times)
    }

    pub fn pick<T: Copy>(&mut self, of: &[T]) -> T {
        self.source.random.pick(of)
    }

    // A small range of the type, now and then none.
    fn small(&mut self, ty: ScalarType) -> Option<(i128, i128)> {
        if self.once_in(4) {
            return None;
        }
        let top = match ty {
            Bool => 1,
            Bits(width) => mask(width.min(4)) as i128,
            Integer => 12,
        };
        let from = if ty == Integer && self.once_in(2) {
            -4
        } else {
            0
        };
        let [a, b] = [0; 2].map(|_| i128::from(self.below(17)).min(top));
        Some((a.min(b) + from, a.max(b)))
    }

    // A node of the type that is no constant: one that is there, or a new leaf.
    pub fn value(&mut self, ty: ScalarType) -> u64 {
        let found = self.source.find(self.scalars, |scalar| {
            scalar.ty == ty && !matches!(scalar.operation, Operation::Constant(_))
        });
        match found {
            Some(id) if !self.once_in(3) => id,
            _ => {
                let range = self.small(ty);
                self.input(ty, range)
            }
        }
    }

    pub fn width(&mut self) -> u16 {
        self.source.width()
    }

    pub fn pattern(&mut self, ty: ScalarType) -> u128 {
        self.source.pattern(ty, Spread::Few)
    }

    // Bits or Integer.
    pub fn number_type(&mut self) -> ScalarType {
        if self.once_in(3) {
            Integer
        } else {
            Bits(self.width())
        }
    }

    // A shift of a shift.
    fn shifts(&mut self) {
        let width = self.width();
        let ty = Bits(width);
        let mut value = self.value(ty);
        for _ in 0..2 + self.below(2) {
            let op = self.pick(&[SHIFT_LEFT, SHIFT_RIGHT]);
            let amount = self.pick(&[ty, Integer]);
            let count = match self.below(4) {
                0 => (width + 1).saturating_sub(self.below(4)),
                _ => self.below(width.min(12) + 3),
            };
            let count = self.constant(amount, count.into());
            value = self.binary(ty, op, value, count);
        }
    }

    // A shift of a small value by an amount that has a range.
    fn shift_ranges(&mut self) {
        let width = self.width();
        let ty = Bits(width);
        let range = self.small(ty);
        let value = self.input(ty, range);
        let ends = [0, 1, 2, 3, 125, 126, 127, 128, 200];
        let [a, b] = [0; 2].map(|_| self.pick(&ends));
        let amount = self.input(Integer, Some((a.min(b), a.max(b))));
        let op = SHIFT_LEFT + u64::from(self.below(3));
        self.binary(ty, op, value, amount);
        // The largest amount after which the value 1 has a range still.
        let one = self.input(Bits(127), Some((0, 1)));
        let amount = self.pick(&[125, 126, 127]);
        let amount = self.constant(Integer, amount);
        self.binary(Bits(127), op, one, amount);
    }

    // A shift of a shift through refinements: a small value is truncated, and extended again.
    fn refined_shifts(&mut self) {
        let [a, b] = [self.width(), self.width()];
        let (narrow, wide) = (a.min(b), a.max(b));
        let ty = Bits(wide);
        let top = i128::from(self.below(4)).min(mask(wide.min(4)) as i128);
        let value = self.input(ty, Some((0, top)));
        let first = self.below(4).into();
        let first = self.constant(Integer, first);
        let shifted = self.binary(ty, SHIFT_LEFT, value, first);
        let small = self.unary(Bits(narrow), TRUNCATE, narrow, shifted);
        let again = self.unary(ty, SIGN_EXTEND, narrow, small);
        let second = self.below(6).into();
        let second = self.constant(Integer, second);
        let op = self.pick(&[SHIFT_LEFT, SHIFT_RIGHT]);
        self.binary(ty, op, again, second);
    }

    // And, Or and Xor with constants, one on another.
    fn masked(&mut self, mut value: u64, ty: ScalarType, times: u16) -> u64 {
        for _ in 0..times {
            let op = self.pick(&[AND, OR, XOR]);
            let pattern = self.pattern(ty);
            value = self.with(ty, op, value, pattern);
        }
        value
    }

    fn masks(&mut self) {
        let ty = Bits(self.width());
        let value = self.value(ty);
        self.masked(value, ty, 3);
    }

    // Parts of one value, changed by constants and joined again, and then compared with it.
    fn fields(&mut self) {
        let width = self.width();
        let ty = Bits(width);
        let value = self.value(ty);
        let cut = self.below(width + 1);
        let mut low = self.slice(value, 0, cut);
        let mut high = self.slice(value, cut, width - cut);
        if !self.once_in(3) {
            let times = 1 + self.below(3);
            low = self.masked(low, Bits(cut), times);
        }
        if self.once_in(2) {
            let times = 1 + self.below(2);
            high = self.masked(high, Bits(width - cut), times);
        }
        if self.once_in(8) {
            high = self.constant(Bits(width - cut), 1);
        }
        let joined = self.concat(high, low, cut, width);
        let op = EQUAL + u64::from(self.below(2));
        let [left, right] = self.pick(&[[value, joined], [joined, value]]);
        self.binary(Bool, op, left, right);
    }

    // Slices of a concat around its seam, and concats of slices that meet.
    fn seams(&mut self) {
        let [a, b] = [self.width().min(64), self.width().min(64)];
        let [high, low] = [self.value(Bits(a)), self.value(Bits(b))];
        let joined = self.concat(high, low, b, a + b);
        let offset = self.below(a + b);
        let width = 1 + self.below(a + b - offset);
        let part = self.slice(joined, offset, width);
        let inner = self.below(width);
        let lower = self.slice(part, 0, inner);
        let upper = self.slice(part, inner, width - inner);
        self.concat(upper, lower, inner, width);
    }

    // A value compared with itself after an And, and perhaps an Or, with constants.
    fn masked_comparison(&mut self) {
        let width = self.width();
        let ty = Bits(width);
        let value = self.value(ty);
        let keep = self.pattern(ty);
        let mut updated = self.with(ty, AND, value, keep);
        if !self.once_in(3) {
            let pattern = self.pattern(ty);
            let pattern = if self.once_in(4) {
                pattern
            } else {
                pattern & !keep
            };
            updated = self.with(ty, OR, updated, pattern);
        }
        let op = EQUAL + u64::from(self.below(2));
        let [left, right] = self.pick(&[[value, updated], [updated, value]]);
        self.binary(Bool, op, left, right);
    }

    // Add and Sub chains, and a comparison through them.
    fn offsets(&mut self) {
        let ty = self.number_type();
        let mut value = self.value(ty);
        let op = self.pick(&[ADD, SUB]);
        for _ in 0..1 + self.below(3) {
            let op = if self.once_in(5) { ADD + SUB - op } else { op };
            let pattern = self.pattern(ty);
            value = self.with(ty, op, value, pattern);
        }
        let target = self.pattern(ty);
        let target = self.constant(ty, target);
        let op = EQUAL + u64::from(self.below(2));
        self.binary(Bool, op, value, target);
    }

    fn remainder(&mut self) {
        let ty = self.number_type();
        let value = self.value(ty);
        let divisor = 1 << self.below(10);
        self.with(ty, REMAINDER_UNSIGNED, value, divisor);
    }

    // A truncation or a slice of arithmetic.
    fn truncation(&mut self) {
        let ty = self.number_type();
        let [left, right] = [self.value(ty), self.value(ty)];
        let op = ADD + u64::from(self.below(6));
        let result = if self.once_in(3) {
            let pattern = self.pattern(ty);
            self.with(ty, op, left, pattern)
        } else {
            self.binary(ty, op, left, right)
        };
        let width = self.width();
        if self.once_in(2) {
            self.slice(result, 0, width);
        } else {
            self.unary(Bits(width), TRUNCATE, width, result);
        }
    }

    // Unary operators on a small value, and the way back.
    fn extension(&mut self) {
        let width = self.width();
        let range = self.small(Bits(width));
        let value = self.input(Bits(width), range);
        let wide = self.width().max(width);
        let ty = self.pick(&[Integer, Bits(wide)]);
        let op = self.pick(&[14, 14, 14, 15, 16]);
        let extended = self.unary(ty, op, width, value);
        let narrow = self.width();
        self.unary(Bits(narrow), TRUNCATE, narrow, extended);
    }

    // Two constants whose sum is too large, added to a value that is low enough for both.
    fn long_way(&mut self) {
        let top = -20 - i128::from(self.below(9));
        let value = self.input(Integer, Some((i128::MIN, top)));
        let first = i128::MAX - i128::from(self.below(9));
        let sum = self.with(Integer, ADD, value, first as u128);
        let second = self.below(20).into();
        self.with(Integer, ADD, sum, second);
    }

    // Integers at the ends of their range.
    fn overflows(&mut self) {
        if self.once_in(4) {
            return self.long_way();
        }
        let ends = [i128::MIN, i128::MIN + 1, -1, 0, 1, i128::MAX - 1, i128::MAX];
        let mut range = || {
            let [a, b] = [0; 2].map(|_| self.source.random.pick(&ends));
            Some((a.min(b), a.max(b)))
        };
        let [a, b] = [range(), range()];
        let left = self.input(Integer, a);
        let right = if self.once_in(2) {
            self.input(Integer, b)
        } else {
            let end = self.pick(&ends);
            self.constant(Integer, end as u128)
        };
        let op = self.pick(&[20, 21, 22, 35, 36, 37, 38]);
        let sum = self.binary(Integer, op, left, right);
        let end = self.pick(&ends);
        self.with(Integer, op, sum, end as u128);
        self.unary(Integer, NEGATE, 0, left);
        self.unary(Integer, NEGATE, 0, right);
    }

    // A comparison of two small ranges.
    fn ranges(&mut self) {
        let ty = self.source.known_type();
        let [a, b] = [self.small(ty), self.small(ty)];
        let left = self.input(ty, a);
        let right = if self.once_in(5) {
            left
        } else {
            self.input(ty, b)
        };
        for _ in 0..2 {
            let op = EQUAL + u64::from(self.below(6));
            self.binary(Bool, op, left, right);
        }
    }

    fn interval(&mut self) {
        let ty = Bits(self.width().min(64));
        let value = self.value(ty);
        let pattern = self.pattern(ty);
        let id = self.with(ty, ADD, value, pattern);
        let [a, b] = [0; 2].map(|_| u128::from(self.below(300)));
        let (low, high) = (a.min(b), a.max(b));
        self.call(Call::UnsignedRange { id, low, high });
    }

    // A value doubled so often that a reduction of it costs up to all units, and more.
    fn doublings(&mut self) {
        let ty = self.number_type();
        let mut value = self.value(ty);
        for _ in 0..5 + self.below(5) {
            value = self.binary(ty, ADD, value, value);
        }
        let width = self.width();
        if self.once_in(2) {
            self.slice(value, 0, width);
        } else {
            self.unary(Bits(width), TRUNCATE, width, value);
        }
    }

    // The low half of a value, under so many constants that its bits may not be looked up, joined to the high half.
    fn deep(&mut self) {
        let half = self.width().clamp(3, 64);
        let ty = Bits(half);
        let value = self.value(Bits(2 * half));
        let mut low = self.slice(value, 0, half);
        let high = self.slice(value, half, half);
        low = self.with(ty, OR, low, 6);
        for turn in 0..58 + self.below(8) {
            let (op, bit) = [(XOR, 2), (OR, 4)][usize::from(turn % 2)];
            low = self.with(ty, op, low, bit);
        }
        self.concat(high, low, half, 2 * half);
    }

    // A shift of a node of the graph by its width, or about it.
    fn shift_out(&mut self) {
        let found = self
            .source
            .find(self.scalars, |scalar| matches!(scalar.ty, Bits(_)));
        if let Some(id) = found
            && let Bits(width) = self.scalars[id as usize].ty
        {
            let amount = (width + self.below(3)).saturating_sub(1);
            let amount = self.constant(Integer, amount.into());
            let op = self.pick(&[SHIFT_LEFT, SHIFT_RIGHT, SHIFT_RIGHT]);
            self.binary(Bits(width), op, id, amount);
        }
    }

    fn fill(&mut self) {
        if self.source.guarding > 0 && self.once_in(2) {
            return self.guards();
        }
        if !self.source.odd.is_empty() && self.once_in(3) {
            return self.shift_out();
        }
        match self.source.random.below(64) {
            0 => self.deep(),
            1 => self.doublings(),
            2..7 => self.overflows(),
            7..11 => self.shifts(),
            11 => self.shift_ranges(),
            12..17 => self.refined_shifts(),
            17..22 => self.masks(),
            22..30 => self.fields(),
            30..35 => self.seams(),
            35..41 => self.masked_comparison(),
            41..46 => self.offsets(),
            46..49 => self.remainder(),
            49..54 => self.truncation(),
            54..58 => self.extension(),
            58..61 => self.ranges(),
            _ => self.interval(),
        }
    }
}

impl Source {
    // Begins a plan on a graph with these nodes.
    pub fn begin_plan(&mut self, scalars: &[Scalar]) {
        let mut draft = Draft {
            source: self,
            scalars,
            calls: vec![],
        };
        draft.fill();
        self.plan = Plan::put(draft.calls);
    }

    // Begins a plan that leads to guards.
    pub fn begin_guards(&mut self, scalars: &[Scalar]) {
        let mut draft = Draft {
            source: self,
            scalars,
            calls: vec![],
        };
        draft.guards();
        self.plan = Plan::put(draft.calls);
    }
}

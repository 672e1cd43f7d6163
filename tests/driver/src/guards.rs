// Random guards: on conditions that stand in a graph, on conditions assumed before, and short lists of calls that lead
// to narrowings of every kind.
use crate::builders::COMPARISONS;
use crate::call::{Call, GUARD_WORDS};
use crate::generate::{PATTERNS, Source, mask};
use crate::native::{Operation, Range, Scalar, ScalarType, Unary};
use crate::plans::{ADD, Draft, EQUAL, SUB, TRUNCATE};
use crate::words::binary_code;
use ScalarType::{Bits, Bool, Integer};

const BOOL_NOT: u64 = 10;
const LESS_UNSIGNED: u64 = 32;

// The guards that are kept in mind.
const REMEMBERED: usize = 12;

// Where an Integer has no next number, and near it.
const CORNERS: [i128; 6] = [
    i128::MIN,
    i128::MIN + 1,
    i128::MIN + 2,
    i128::MAX - 2,
    i128::MAX - 1,
    i128::MAX,
];

pub fn is_comparison(scalar: &Scalar) -> bool {
    matches!(scalar.operation, Operation::Binary(op, ..) if COMPARISONS.contains(&binary_code(op)))
}

pub fn is_not(scalar: &Scalar) -> bool {
    matches!(scalar.operation, Operation::Unary(Unary::BoolNot, _))
}

impl Source {
    // 0 or 1, and for numbers alone now and then another.
    fn flag(&mut self) -> u64 {
        if self.has_numbers && self.random.once_in(40) {
            return self.random.pick(&[2, 3, 255, 1 << 32, u64::MAX]);
        }
        self.random.next() % 2
    }

    // Mostly a comparison or a BoolNot, now and then any Bool, any node or no node.
    fn condition(&mut self, scalars: &[Scalar]) -> u64 {
        let found = match self.random.below(16) {
            0 => None,
            1 => self.find(scalars, |_| true),
            2 | 3 => self.find(scalars, |scalar| scalar.ty == Bool),
            4..7 => self.find(scalars, |scalar| scalar.ty == Bool && is_not(scalar)),
            _ => self.find(scalars, |scalar| scalar.ty == Bool && is_comparison(scalar)),
        };
        found.unwrap_or_else(|| self.id(scalars.len() as u64))
    }

    // A guard kept in mind, perhaps the other way.
    pub fn guard_again(&mut self) -> Option<Call> {
        if self.assumed.is_empty() {
            return None;
        }
        let (condition, expected) = self.random.pick(&self.assumed);
        let flip = u64::from(self.random.once_in(3));
        Some(Call::AssumeGuard {
            condition,
            expected: expected ^ flip,
        })
    }

    pub fn assume_guard(&mut self, scalars: &[Scalar]) -> Call {
        if self.random.once_in(4)
            && let Some(call) = self.guard_again()
        {
            return call;
        }
        Call::AssumeGuard {
            condition: self.condition(scalars),
            expected: self.flag(),
        }
    }

    pub fn guard(&mut self, scalars: &[Scalar]) -> Call {
        let room = if self.has_numbers && self.random.once_in(16) {
            self.random.pick(&[0, 1, 4, 6])
        } else {
            GUARD_WORDS
        };
        Call::Guard {
            condition: self.condition(scalars),
            expected: self.flag(),
            room,
        }
    }

    // Any two values, equal ones, ones of which only the low or only the high halves are equal, and neighbours.
    pub fn two_values(&mut self) -> [u128; 2] {
        let left = if self.random.once_in(2) {
            self.random.pick(&PATTERNS)
        } else {
            self.random.pattern()
        };
        let other = self.random.pattern();
        let low = u128::from(u64::MAX);
        let right = match self.random.below(8) {
            0 | 1 => left,
            2 => left & low | other & !low,
            3 => left & !low | other & low,
            4 => left.wrapping_add(1),
            5 => self.random.pick(&PATTERNS),
            _ => other,
        };
        self.random.pick(&[[left, right], [right, left]])
    }

    pub fn matches(&mut self) -> Call {
        let op = match self.random.below(16) {
            0 if self.has_numbers => self.random.pick(&[0, 9, 19, 39, 1 << 32, u64::MAX]),
            0 | 1 => ADD + self.random.next() % 19,
            _ => EQUAL + self.random.next() % 6,
        };
        let [left, right] = self.two_values();
        Call::Matches {
            op,
            expected: self.flag(),
            host64: self.flag(),
            left,
            right,
        }
    }

    // Is it the turn of a call about guards?
    pub fn is_guarding(&mut self) -> bool {
        self.guarding > 0 && self.random.once_in(self.guarding)
    }

    // A call about guards.
    pub fn about_guards(&mut self, scalars: &[Scalar]) -> Call {
        match self.random.below(10) {
            0 => self.matches(),
            1 | 2 => self.guard(scalars),
            _ => self.assume_guard(scalars),
        }
    }

    // Keeps a guard in mind.
    pub fn remember(&mut self, call: &Call) {
        if let Call::AssumeGuard {
            condition,
            expected,
        } = *call
        {
            if self.assumed.len() == REMEMBERED {
                self.assumed.remove(0);
            }
            self.assumed.push((condition, expected));
        }
    }

    // The nodes have other ids now: a kept one has the number of kept ones below it. A dropped one is now and then
    // still called by its old id.
    pub fn renumber(&mut self, keep: &[u8]) {
        self.forget();
        let place = |id: u64| {
            let id = usize::try_from(id).ok()?;
            let is_kept = keep.get(id) == Some(&1);
            is_kept.then(|| keep[..id].iter().filter(|element| **element == 1).count() as u64)
        };
        for (id, expected) in std::mem::take(&mut self.assumed) {
            let old = Some(id).filter(|_| self.random.once_in(6));
            if let Some(id) = place(id).or(old) {
                self.assumed.push((id, expected));
            }
        }
    }
}

// A number inside the range, or about one of its ends.
fn near(draft: &mut Draft, Range { min, max }: Range) -> i128 {
    let end = draft.pick(&[min, max]);
    let by = draft.pick(&[-2, -1, -1, 0, 0, 0, 1, 1, 2]);
    let length = (max as u128).wrapping_sub(min as u128);
    if length > 1 && draft.once_in(2) {
        let inside = draft.source.random.bits() % length;
        return (min as u128).wrapping_add(inside) as i128;
    }
    end.wrapping_add(by)
}

// The range moved by a number, where it does not wrap.
fn moved(ty: ScalarType, range: Range, by: i128) -> Range {
    let end = |end: i128| match ty {
        Bits(width) => (end.wrapping_add(by) as u128 & mask(width)) as i128,
        _ => end.wrapping_add(by),
    };
    Range {
        min: end(range.min),
        max: end(range.max),
    }
}

impl Draft<'_> {
    fn assumed(&mut self, condition: u64, expected: u64) {
        self.call(Call::AssumeGuard {
            condition,
            expected,
        });
    }

    // Assumes a condition: perhaps behind BoolNots, perhaps again, and perhaps the other way too.
    fn assume(&mut self, mut condition: u64) {
        if self.once_in(3) {
            for _ in 0..1 + self.below(3) {
                condition = self.unary(Bool, BOOL_NOT, 0, condition);
            }
        }
        let expected = u64::from(self.below(2));
        if self.once_in(4) {
            self.call(Call::Guard {
                condition,
                expected,
                room: GUARD_WORDS,
            });
        }
        self.assumed(condition, expected);
        if self.once_in(4) {
            self.assumed(condition, expected);
        }
        if self.once_in(3) {
            self.assumed(condition, 1 - expected);
        }
    }

    // A comparison of two nodes, either way round.
    fn compared(&mut self, left: u64, right: u64) -> u64 {
        let op = EQUAL + u64::from(self.below(6));
        let [left, right] = self.pick(&[[left, right], [right, left]]);
        self.binary(Bool, op, left, right)
    }

    // A new input: with a range that may go up to the type's ends, or with one that has room on both sides.
    fn ranged(&mut self, ty: ScalarType) -> (u64, Range) {
        let range = if self.once_in(2) {
            self.source.inside(ty)
        } else {
            let top = match ty {
                Bool => 1,
                Bits(width) => mask(width.min(9)) as i128,
                Integer => 300,
            };
            let [a, b] = [0; 2].map(|_| i128::from(self.below(400)).min(top));
            let down = if ty == Integer { 40 } else { 0 };
            Range {
                min: a.min(b) - down,
                max: a.max(b),
            }
        };
        let id = self.input(ty, Some((range.min, range.max)));
        (id, range)
    }

    // Compares the value with constants about its ends, and assumes that.
    fn limited(&mut self, ty: ScalarType, value: u64, range: Range) {
        for _ in 0..1 + self.below(3) {
            let limit = near(self, range);
            let limit = self.constant(ty, limit as u128);
            let condition = self.compared(value, limit);
            self.assume(condition);
        }
    }

    // What is made of a value after a guard is made of its narrowed node.
    fn used(&mut self, ty: ScalarType, value: u64) {
        let offset = u128::from(self.below(5));
        match self.below(4) {
            0 => {
                self.with(ty, ADD, value, offset);
            }
            1 => {
                let width = self.width();
                self.slice(value, 0, width);
            }
            2 => {
                let limit = self.constant(ty, offset);
                let condition = self.compared(value, limit);
                self.assume(condition);
            }
            _ => {}
        }
    }

    fn guarded_limit(&mut self) {
        let ty = self.number_type();
        let (value, range) = self.ranged(ty);
        self.limited(ty, value, range);
        self.used(ty, value);
    }

    // A value that is already there.
    fn guarded_value(&mut self) {
        let ty = self.number_type();
        let value = self.value(ty);
        let limit = self.pattern(ty);
        let limit = self.constant(ty, limit);
        let condition = self.compared(value, limit);
        self.assume(condition);
        self.used(ty, value);
    }

    // Sums with constants, Add and Sub by turns so that they stay apart, and a guard on the last.
    fn guarded_sum(&mut self) {
        let ty = self.number_type();
        let (mut value, mut range) = self.ranged(ty);
        let mut op = self.pick(&[ADD, SUB]);
        for _ in 0..1 + self.below(5) {
            let offset = match self.below(6) {
                0 => self.pattern(ty),
                1 => u128::from(self.below(3)).wrapping_neg(),
                _ => u128::from(1 + self.below(9)),
            };
            value = self.with(ty, op, value, offset);
            let by = offset as i128;
            let by = if op == ADD { by } else { by.wrapping_neg() };
            range = moved(ty, range, by);
            op = ADD + SUB - op;
        }
        self.limited(ty, value, range);
    }

    // Two values with ranges of their own, and sums of them.
    fn guarded_pair(&mut self) {
        let ty = self.source.known_type();
        let (left, a) = self.ranged(ty);
        let (right, b) = self.ranged(ty);
        let condition = self.compared(left, right);
        self.assume(condition);
        if self.once_in(2) {
            self.limited(ty, left, a);
        }
        if self.once_in(2) {
            self.limited(ty, right, b);
        }
        self.assume(condition);
        if ty != Bool {
            let op = self.pick(&[ADD, SUB]);
            let sum = self.binary(ty, op, left, right);
            self.limited(ty, sum, moved(ty, a, b.min));
        }
    }

    // Integers up to the ends of their type. Each is brought to an end, and then they are compared.
    fn guarded_corner(&mut self) {
        let mut range = || {
            let [a, b] = [0; 2].map(|_| self.source.random.pick(&CORNERS));
            Some((a.min(b), a.max(b)))
        };
        let ranges = [range(), range()];
        let values = ranges.map(|range| self.input(Integer, range));
        let condition = self.compared(values[0], values[1]);
        self.assume(condition);
        for value in values {
            let end = self.pick(&[i128::MIN, i128::MAX]);
            let end = self.constant(Integer, end as u128);
            let is_end = self.binary(Bool, EQUAL, value, end);
            self.assumed(is_end, 1);
            if self.once_in(3) {
                self.assumed(is_end, 0);
            }
        }
        self.assumed(condition, 0);
        self.assumed(condition, 1);
    }

    // Conditions of Bools: compared, joined, and as they are.
    fn guarded_bools(&mut self) {
        let [left, right] = [self.value(Bool), self.value(Bool)];
        let op = self.pick(&[23, 24, 25, 29, 30, 31, 32, 33, 34]);
        let joined = self.binary(Bool, op, left, right);
        self.assume(joined);
        let bit = self.below(2).into();
        let bit = self.constant(Bool, bit);
        let compared = self.compared(left, bit);
        self.assume(compared);
        let condition = self.pick(&[left, right, bit]);
        self.assume(condition);
    }

    // A value within limits, which is a comparison of a difference.
    fn guarded_interval(&mut self) {
        let ty = Bits(self.width().min(64));
        let (value, range) = self.ranged(ty);
        let [a, b] = [near(self, range), near(self, range)].map(|end| end as u128);
        let condition = self.call(Call::UnsignedRange {
            id: value,
            low: a.min(b),
            high: a.max(b),
        });
        self.assume(condition);
        self.limited(ty, value, range);
    }

    // A value under another operator than Add and Sub, or one of two values.
    fn guarded_other(&mut self) {
        let ty = self.number_type();
        let (value, range) = self.ranged(ty);
        let op = ADD + u64::from(self.below(19));
        let ty_of = if COMPARISONS.contains(&op) { Bool } else { ty };
        let constant = u128::from(1 + self.below(4));
        let result = if self.once_in(3) {
            let other = self.value(ty);
            self.binary(ty_of, op, value, other)
        } else {
            let constant = self.constant(ty, constant);
            self.binary(ty_of, op, value, constant)
        };
        self.limited(ty_of, result, range);
    }

    // A small value seen in another type: the same bits of a sum, or of a comparison.
    fn guarded_view(&mut self) {
        let width = self.width();
        let ty = self.number_type();
        let (value, offset) = (self.below(4), self.below(4));
        let value = self.input(ty, Some((0, i128::from(value))));
        let op = self.pick(&[ADD, LESS_UNSIGNED, EQUAL]);
        let constant = self.constant(ty, offset.into());
        let ty_of = if op == ADD { ty } else { Bool };
        let result = self.binary(ty_of, op, value, constant);
        let width = match ty {
            Bits(other) if self.once_in(2) => other,
            _ => width,
        };
        let seen = self.unary(Bits(width), TRUNCATE, width, result);
        let range = Range { min: 0, max: 3 };
        self.limited(Bits(width), seen, range);
    }

    // A list of calls that leads to guards.
    pub fn guards(&mut self) {
        match self.source.random.below(20) {
            0..4 => self.guarded_limit(),
            4 => self.guarded_value(),
            5..10 => self.guarded_sum(),
            10..13 => self.guarded_pair(),
            13 | 14 => self.guarded_corner(),
            15 => self.guarded_bools(),
            16 => self.guarded_interval(),
            17 => self.guarded_other(),
            _ => self.guarded_view(),
        }
    }
}

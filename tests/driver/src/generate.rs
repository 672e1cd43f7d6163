// Random calls: leaves and looks, and the choice among all kinds. The builders are in builders.rs.
use crate::call::{Answer, Call, TypeCode};
use crate::native::{Operation, Range, Scalar, ScalarType};
use crate::plans::Plan;
use crate::random::Random;

pub const WIDTHS: [u16; 9] = [0, 1, 7, 8, 63, 64, 65, 127, 128];
const WIDE: [u64; 3] = [129, 255, 65535];
const WIDER: [u64; 3] = [65536, 65536 + 8, u64::MAX];

pub const PATTERNS: [u128; 20] = [
    0,
    1,
    2,
    3,
    5,
    127,
    128,
    255,
    256,
    300,
    (1 << 63) - 1,
    1 << 63,
    (1 << 64) - 1,
    1 << 64,
    (1 << 127) - 1,
    1 << 127,
    (1 << 127) + 1,
    (1 << 127) + (1 << 64),
    u128::MAX - 1,
    u128::MAX,
];

const ENDS: [i128; 15] = [
    i128::MIN,
    i128::MIN + 1,
    -(1 << 64) - 1,
    -(1 << 64),
    -256,
    -1,
    0,
    1,
    2,
    200,
    (1 << 63) - 1,
    (1 << 64) - 1,
    1 << 64,
    i128::MAX - 1,
    i128::MAX,
];

const NUMBERS: [u64; 6] = [0, 1, 2, 7, 1 << 32, u64::MAX];

// How many distinct values the calls of a list have.
#[derive(Clone, Copy, PartialEq, Eq)]
pub enum Spread {
    Few,
    Many,
}

pub struct Source {
    pub random: Random,
    // Also what only numbers can say: types that there are not, and other lengths of lent words.
    pub has_numbers: bool,
    // The widths of the list at hand, few so that nodes meet.
    pub widths: Vec<u16>,
    // The nodes of the region at hand as no builders have stored them.
    pub odd: Vec<usize>,
    pub plan: Plan,
    // Once in so many times a call is about guards, or never.
    pub guarding: usize,
    // Guards assumed lately: the condition, and what is expected.
    pub assumed: Vec<(u64, u64)>,
}

pub fn mask(width: u16) -> u128 {
    u128::MAX.unbounded_shr(128u32.saturating_sub(width.into()))
}

// The largest number that a range of the type can have.
fn top(ty: ScalarType) -> i128 {
    match ty {
        ScalarType::Bool => 1,
        ScalarType::Bits(width) if width < 127 => mask(width) as i128,
        ScalarType::Bits(_) | ScalarType::Integer => i128::MAX,
    }
}

fn bottom(ty: ScalarType) -> i128 {
    if ty == ScalarType::Integer {
        i128::MIN
    } else {
        0
    }
}

impl Source {
    pub fn new(seed: u64, has_numbers: bool) -> Self {
        Source {
            random: Random(seed),
            has_numbers,
            widths: WIDTHS.to_vec(),
            odd: vec![],
            plan: Plan::default(),
            guarding: 0,
            assumed: vec![],
        }
    }

    // Chooses the widths of another list, and how many guards there are in it. 8 and 16 are in most.
    pub fn start(&mut self) {
        self.plan = Plan::default();
        self.odd.clear();
        self.assumed.clear();
        self.guarding = self.random.pick(&[0, 4, 8, 12]);
        self.widths.clear();
        for width in [8, 16] {
            if !self.random.once_in(6) {
                self.widths.extend([width; 2]);
            }
        }
        for _ in 0..1 + self.random.below(3) {
            let width = match self.random.below(4) {
                0 => self.random.below(129) as u16,
                _ => self.random.pick(&WIDTHS),
            };
            self.widths.push(width);
        }
    }

    pub fn width(&mut self) -> u16 {
        self.random.pick(&self.widths)
    }

    pub fn known_type(&mut self) -> ScalarType {
        match self.random.below(10) {
            0 => ScalarType::Bool,
            1..4 => ScalarType::Integer,
            _ => ScalarType::Bits(self.width()),
        }
    }

    fn type_code(&mut self) -> TypeCode {
        if self.random.once_in(30) {
            let width = self.random.pick(&WIDE);
            return TypeCode { code: 1, width };
        }
        if self.has_numbers && self.random.once_in(40) {
            let code = self.random.pick(&[0, 1, 2, 3, 1 << 32, u64::MAX]);
            let width = self.random.pick(&[0, 1, 128, WIDER[0], WIDER[1], WIDER[2]]);
            return TypeCode { code, width };
        }
        self.known_type().into()
    }

    // Ones from one bit up to another.
    fn field(&mut self, width: u16) -> u128 {
        let [a, b] = [0; 2].map(|_| self.random.below(usize::from(width) + 1) as u16);
        mask(a.max(b)) & !mask(a.min(b))
    }

    // A value for a constant of the type, mostly one that folds have to do with.
    pub fn pattern(&mut self, ty: ScalarType, spread: Spread) -> u128 {
        if spread == Spread::Many {
            return self.random.below(1500) as u128;
        }
        if ty == ScalarType::Bool {
            return self.random.pick(&[0, 0, 0, 1, 1, 1, 1, 2]);
        }
        let width = match ty {
            ScalarType::Bits(width) => width.min(128),
            _ => self.width(),
        };
        match self.random.below(16) {
            0 => mask(width),
            1 => mask(width).wrapping_add(1),
            2 => self.random.pattern(),
            3 => 1 << self.random.below(usize::from(width.clamp(1, 128))),
            4 | 5 => self.field(width),
            6 => !self.field(width) & mask(width),
            7 => (self.random.below(9) as u128).wrapping_neg(),
            8..13 => self.random.below(10) as u128,
            13 => self.random.below(130) as u128,
            _ => self.random.pick(&PATTERNS),
        }
    }

    pub fn number(&mut self, spread: Spread) -> u64 {
        match spread {
            Spread::Few => self.random.pick(&NUMBERS),
            Spread::Many => self.random.next() % 1500,
        }
    }

    // Two ends in order, from the type's smallest number to its largest.
    pub fn inside(&mut self, ty: ScalarType) -> Range {
        let (bottom, top) = (bottom(ty), top(ty));
        let whole = mask(self.width()) as i128;
        let mut end = || match self.random.below(9) {
            0 | 1 => bottom,
            2 | 3 => top,
            8 => whole.clamp(bottom, top),
            4 => self.random.pick(&ENDS).clamp(bottom, top),
            5 => (-(self.random.below(20) as i128)).clamp(bottom, top),
            _ => (self.random.below(20) as i128).clamp(bottom, top),
        };
        let (a, b) = (end(), end());
        Range {
            min: a.min(b),
            max: a.max(b),
        }
    }

    // Inside the type, outside it by one, empty, or any two ends.
    fn given_range(&mut self, ty: ScalarType) -> Option<Range> {
        let whole = Range {
            min: bottom(ty),
            max: top(ty),
        };
        Some(match self.random.below(10) {
            0..3 => return None,
            3..6 => self.inside(ty),
            6 => Range {
                min: whole.min.saturating_sub(1),
                ..whole
            },
            7 => Range {
                max: whole.max.saturating_add(1),
                ..whole
            },
            8 => {
                let Range { min, max } = self.inside(ty);
                Range { min: max, max: min }
            }
            _ => Range {
                min: self.random.pick(&ENDS),
                max: self.random.pick(&ENDS),
            },
        })
    }

    // Mostly an id of the region.
    pub fn id(&mut self, count: u64) -> u64 {
        if count > 0 && !self.random.once_in(8) {
            return self.random.next() % count;
        }
        let near = [count, count.wrapping_add(1), 511, 512, 513];
        match self.random.below(7) {
            5 => u64::MAX,
            6 => 1 << 32,
            place => near[place],
        }
    }

    fn room(&mut self) -> usize {
        if self.has_numbers && self.random.once_in(20) {
            self.random.pick(&[0, 1, 3])
        } else {
            2
        }
    }

    // The call that a node of the graph could be the answer to.
    fn call_of_node(&mut self, scalars: &[Scalar]) -> Option<Call> {
        if scalars.is_empty() {
            return None;
        }
        let scalar = &scalars[self.random.below(scalars.len())];
        let ty = scalar.ty.into();
        match scalar.operation {
            Operation::Constant(value) => Some(Call::Constant { ty, value }),
            Operation::Input(number) => Some(Call::Input {
                number: number as u64,
                ty,
                range: scalar.range.filter(|_| !self.random.once_in(4)),
            }),
            Operation::Effect(number) => Some(Call::Effect {
                number: number as u64,
                ty,
            }),
            _ => self.builder_of_node(scalar),
        }
    }

    fn constant(&mut self, spread: Spread) -> Call {
        let ty = self.type_code();
        let known = ty.ty().unwrap_or(ScalarType::Integer);
        let value = self.pattern(known, spread);
        Call::Constant { ty, value }
    }

    fn input(&mut self, spread: Spread) -> Call {
        let ty = self.type_code();
        let known = ty.ty().unwrap_or(ScalarType::Integer);
        let range = self.given_range(known);
        let number = self.number(spread);
        Call::Input { number, ty, range }
    }

    fn effect(&mut self, spread: Spread) -> Call {
        let ty = self.type_code();
        let number = self.number(spread);
        Call::Effect { number, ty }
    }

    fn literal(&mut self, count: u64) -> Call {
        let id = self.id(count);
        let room = self.room();
        Call::Literal { id, room }
    }

    fn resolve(&mut self, count: u64) -> Call {
        let id = self.id(count);
        Call::Resolve { id }
    }

    pub fn declaration(&mut self, spread: Spread) -> Call {
        match self.random.below(8) {
            0..4 => self.constant(spread),
            4..7 => self.input(spread),
            _ => self.effect(spread),
        }
    }

    // A call on a graph with these nodes. Once it is answered, the source has to hear it.
    pub fn call(&mut self, scalars: &[Scalar], spread: Spread) -> Call {
        let call = match self.plan.next() {
            Some(call) => call,
            None => self.single(scalars, spread),
        };
        self.remember(&call);
        call
    }

    // The nodes have other ids now.
    pub fn forget(&mut self) {
        self.plan = Plan::default();
        self.odd.clear();
    }

    pub fn hear(&mut self, answer: Answer) {
        self.plan.hear(answer);
    }

    // A call by itself, perhaps with a plan for those after it.
    fn single(&mut self, scalars: &[Scalar], spread: Spread) -> Call {
        if self.random.once_in(8) {
            self.begin_plan(scalars);
        }
        if self.is_guarding() {
            return self.about_guards(scalars);
        }
        let count = scalars.len() as u64;
        let is_small = scalars.len() < 6;
        match self.random.below(40) {
            0 => self.literal(count),
            1 => self.resolve(count),
            2 => Call::IsGraph,
            3..7 => match self.call_of_node(scalars) {
                Some(call) => call,
                None => self.declaration(spread),
            },
            7..14 => self.declaration(spread),
            14..26 if is_small => self.declaration(spread),
            _ => self.builder(scalars),
        }
    }

    // One call of each kind.
    pub fn calls(&mut self, scalars: &[Scalar]) -> Vec<Call> {
        let count = scalars.len() as u64;
        vec![
            Call::IsGraph,
            self.constant(Spread::Few),
            self.input(Spread::Few),
            self.effect(Spread::Few),
            self.unary(scalars),
            self.binary_itself(scalars),
            self.slice(scalars),
            self.concat(scalars),
            self.unsigned_range(scalars),
            self.literal(count),
            self.resolve(count),
            self.assume_guard(scalars),
            self.guard(scalars),
            self.matches(),
        ]
    }
}

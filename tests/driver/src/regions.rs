// Random regions that pass question 1, and damage to a region.
use crate::generate::{PATTERNS, Source, Spread, WIDTHS};
use crate::meter::{self, Kind};
use crate::native::{Binary, Graph, Operation, Range, Scalar, ScalarType, Unary};
use crate::operators;
use crate::original::apply;
use crate::words::{
    ALIAS, LIMIT, Node, REGION, WORDS, encode, is_node, node_words, read_node, readable, start_of,
};

// The kinds of words: a node's own by their place, and these two.
pub const COUNT_WORD: usize = WORDS;
pub const TAIL_WORD: usize = WORDS + 1;
pub const WORD_KINDS: [&str; WORDS + 2] = [
    "type",
    "width",
    "flag",
    "minimum, low",
    "minimum, high",
    "maximum, low",
    "maximum, high",
    "operation",
    "field 1",
    "field 2",
    "field 3",
    "alias",
    "count",
    "tail",
];

// Does an Integer binary have a range, and its left operand none?
fn has_range_alone(scalars: &[Scalar], id: usize) -> bool {
    let scalar = &scalars[id];
    matches!(scalar.operation, Operation::Binary(_, left, _) if scalars[left].range.is_none())
        && scalar.ty == ScalarType::Integer
        && scalar.range.is_some()
}

// Is a value of Bits shifted left by a constant, of which none is left?
fn is_shifted_out(scalars: &[Scalar], id: usize) -> bool {
    let scalar = &scalars[id];
    let ScalarType::Bits(width) = scalar.ty else {
        return false;
    };
    match scalar.operation {
        Operation::Binary(Binary::ShiftLeft, _, amount) => {
            matches!(scalars[amount].operation, Operation::Constant(amount) if amount >= width.into())
        }
        _ => false,
    }
}

impl Source {
    fn operator_width(&mut self) -> u16 {
        if self.random.once_in(2) {
            return self.width();
        }
        self.random.pick(&WIDTHS)
    }

    fn unary_operator(&mut self) -> Unary {
        let width = self.operator_width();
        self.random.pick(&operators::unary(width))
    }

    // Any operation whose operands are below the node.
    fn operation(&mut self, id: usize) -> Operation {
        let kinds = if id == 0 { 3 } else { 9 };
        let kind = self.random.below(kinds);
        let mut operand = || self.random.below(id.max(1));
        let (a, b) = (operand(), operand());
        match kind {
            0 => Operation::Constant(self.random.pick(&PATTERNS)),
            1 => Operation::Input(self.number(Spread::Few) as usize),
            2 => Operation::Effect(self.number(Spread::Few) as usize),
            3 | 4 => Operation::Refine(a),
            5 => Operation::Slice {
                value: a,
                offset: self.random.pick(&[0, 1, 8, 64, 126, 127]),
                width: self.operator_width(),
            },
            6 => Operation::Concat {
                high: a,
                low: b,
                low_width: self.operator_width(),
            },
            7 => Operation::Unary(self.unary_operator(), a),
            _ => Operation::Binary(self.random.pick(&operators::BINARY), a, b),
        }
    }

    // A leaf as a call leaves it.
    fn declared(&mut self) -> Scalar {
        let mut graph = Graph::default();
        let ty = self.known_type();
        match self.random.below(3) {
            0 if ty == ScalarType::Bool => graph.constant(ty, self.random.below(2) as u128),
            0 => graph.constant(ty, self.random.pick(&PATTERNS)),
            1 => {
                let range = Some(self.inside(ty)).filter(|_| self.random.once_in(2));
                graph.input(self.number(Spread::Few) as usize, ty, range)
            }
            _ => graph.effect(self.number(Spread::Few) as usize, ty),
        };
        graph.scalars.remove(0)
    }

    fn scalar(&mut self, id: usize) -> Scalar {
        if self.random.once_in(3) {
            return self.declared();
        }
        let ty = self.known_type();
        let range = Some(self.inside(ty)).filter(|_| !self.random.once_in(4));
        Scalar {
            ty,
            range,
            operation: self.operation(id),
        }
    }

    // What no call leaves: a constant that is not of its type.
    pub fn wrong_constant(&mut self) -> Scalar {
        let (ty, value) = match self.random.below(3) {
            0 => (ScalarType::Bool, self.random.pick(&[2, 5, u128::MAX])),
            1 => (ScalarType::Bits(8), self.random.pick(&[256, 300, 1 << 127])),
            _ => (ScalarType::Bits(0), 1),
        };
        let range = Some(self.inside(ty)).filter(|_| self.random.once_in(2));
        Scalar {
            ty,
            range,
            operation: Operation::Constant(value),
        }
    }

    fn count(&mut self) -> usize {
        match self.random.below(200) {
            0 => LIMIT,
            1 => LIMIT - 1,
            2 => 3 + self.random.below(LIMIT - 3),
            3..6 => LIMIT - self.random.below(8),
            _ => 3 + self.random.below(22),
        }
    }

    // A region that passes question 1 and that no calls could have grown: it has a constant that is not of its type,
    // or two nodes with one key.
    fn region(&mut self) -> Vec<u64> {
        let count = self.count();
        let mut region = vec![0; REGION];
        region[0] = count as u64;
        let odd = 1 + self.random.below(count - 1);
        let is_double = self.random.once_in(2);
        for id in 0..count {
            let scalar = if id == odd && !is_double {
                self.wrong_constant()
            } else {
                self.scalar(id)
            };
            let alias = (id + 1 < count && self.random.once_in(4))
                .then(|| id + 1 + self.random.below(count - id - 1));
            let node = node_words(&scalar, alias);
            region[start_of(id)..][..WORDS].copy_from_slice(&node);
        }
        if is_double {
            let first = start_of(self.random.below(odd));
            region.copy_within(first..first + WORDS - 1, start_of(odd));
        }
        region
    }

    pub fn grown_graph(&mut self) -> Graph {
        meter::count_as(Kind::Fixed);
        self.start();
        let mut graph = Graph::default();
        for _ in 0..8 + self.random.below(50) {
            let call = self.call(&graph.scalars, Spread::Few);
            let answer = apply(&mut graph, &call);
            self.hear(answer);
        }
        graph
    }

    // A graph that calls have grown, with room for a few nodes more.
    pub fn full_graph(&mut self) -> Graph {
        let mut graph = self.grown_graph();
        let room = self.random.below(8);
        for number in graph.scalars.len()..LIMIT - room {
            let ty = self.known_type();
            graph.effect(1000 + number, ty);
        }
        graph
    }

    pub fn grown_region(&mut self) -> Vec<u64> {
        let graph = if self.random.once_in(60) {
            self.full_graph()
        } else {
            self.grown_graph()
        };
        let mut region = vec![0; REGION];
        encode(&graph, &mut region);
        region
    }

    // A constant about the limits of the type, which it may pass.
    fn limit_value(&mut self, ty: ScalarType) -> u128 {
        let width = match ty {
            ScalarType::Bits(width) => width,
            _ => self.width(),
        };
        match self.random.below(6) {
            0 => width.into(),
            1 => u128::from(width).wrapping_sub(1),
            2 => 1u128.unbounded_shl(width.into()),
            3 => u128::from(width) + 1,
            4 => self.random.pick(&PATTERNS),
            _ => self.random.pattern(),
        }
    }

    fn changed_operation(&mut self, scalar: &Scalar, id: usize) -> Operation {
        let operand = self.random.below(id.max(1));
        let is_first = self.random.once_in(2);
        match scalar.operation {
            Operation::Constant(_) => Operation::Constant(self.limit_value(scalar.ty)),
            Operation::Binary(_, left, right) if self.random.once_in(3) => {
                Operation::Binary(self.random.pick(&operators::BINARY), left, right)
            }
            Operation::Binary(operator, _, right) if is_first => {
                Operation::Binary(operator, operand, right)
            }
            Operation::Binary(operator, left, _) => Operation::Binary(operator, left, operand),
            Operation::Concat { low, low_width, .. } if is_first => Operation::Concat {
                high: operand,
                low,
                low_width,
            },
            Operation::Refine(_) => Operation::Refine(operand),
            _ => self.operation(id),
        }
    }

    // Another alias, range, type or operation.
    fn change(&mut self, node: &mut Node, id: usize, count: usize) {
        let scalar = &mut node.scalar;
        match self.random.below(8) {
            0..3 if id + 1 < count => {
                node.alias = Some(id + 1 + self.random.below(count - id - 1));
            }
            3 => scalar.range = None,
            4 => scalar.range = Some(self.inside(scalar.ty)),
            5 => scalar.ty = self.known_type(),
            _ => scalar.operation = self.changed_operation(scalar, id),
        }
    }

    // Takes away the range of the left operand of an Integer binary.
    fn strip(&mut self, region: &mut [u64]) {
        let scalars = readable(region);
        let sum = self.find(&scalars, |scalar| {
            scalar.ty == ScalarType::Integer && matches!(scalar.operation, Operation::Binary(..))
        });
        if let Some(id) = sum
            && let Operation::Binary(_, left, _) = scalars[id as usize].operation
        {
            region[start_of(left) + 2..][..5].fill(0);
        }
    }

    // Makes the constant amount of a left shift the width of its type.
    fn shift_out(&mut self, region: &mut [u64]) {
        let scalars = readable(region);
        let shift = self.find(&scalars, |scalar| {
            matches!(scalar.operation, Operation::Binary(Binary::ShiftLeft, _, amount)
                if matches!(scalars[amount].operation, Operation::Constant(_)))
        });
        if let Some(id) = shift
            && let ScalarType::Bits(width) = scalars[id as usize].ty
            && let Operation::Binary(_, _, amount) = scalars[id as usize].operation
        {
            region[start_of(amount) + 8..][..2].copy_from_slice(&[width.into(), 0]);
        }
    }

    // A grown region in which some nodes were changed so that it still passes question 1, with one node more as no
    // calls could have added it.
    fn changed_region(&mut self) -> Vec<u64> {
        let mut region = self.grown_region();
        let count = region[0] as usize;
        for _ in 0..2 + self.random.below(16) {
            let id = self.random.below(count.max(1));
            let words = &region[start_of(id)..][..WORDS];
            let Some(mut node) = read_node(words) else {
                continue;
            };
            self.change(&mut node, id, count);
            let words = node_words(&node.scalar, node.alias);
            if is_node(&node, id, count) {
                region[start_of(id)..][..WORDS].copy_from_slice(&words);
            }
        }
        if self.random.once_in(2) {
            self.strip(&mut region);
        } else {
            self.shift_out(&mut region);
        }
        let leaf = self.extreme_input();
        self.append(&mut region, &leaf);
        self.append_refine(&mut region);
        let constant = self.wrong_constant();
        self.append(&mut region, &constant);
        region
    }

    // Adds a node to a region that has room, perhaps as an alias of another.
    fn append(&mut self, region: &mut [u64], scalar: &Scalar) {
        let id = region[0] as usize;
        if id >= LIMIT {
            return;
        }
        region[start_of(id)..][..WORDS].copy_from_slice(&node_words(scalar, None));
        region[0] += 1;
        if id > 0 && self.random.once_in(2) {
            let other = start_of(self.random.below(id));
            region[other + ALIAS] = id as u64 + 1;
        }
    }

    // Adds a Refine of any type to a region that has room, as the alias of a node that has its source's type.
    fn append_refine(&mut self, region: &mut [u64]) {
        let scalars = readable(region);
        let wants_shift = self.random.once_in(2);
        let source = self.find(&scalars, |scalar| {
            let operation = &scalar.operation;
            !wants_shift || matches!(operation, Operation::Binary(Binary::ShiftLeft, ..))
        });
        let Some(source) = source.map(|id| id as usize) else {
            return;
        };
        let (ty, id) = (self.known_type(), scalars.len());
        let scalar = Scalar {
            ty,
            range: Some(self.inside(ty)).filter(|_| self.random.once_in(2)),
            operation: Operation::Refine(source),
        };
        let same = self.of_type(&scalars, scalars[source].ty) as usize;
        if id < LIMIT && same < id {
            region[start_of(id)..][..WORDS].copy_from_slice(&node_words(&scalar, None));
            region[start_of(same) + ALIAS] = id as u64 + 1;
            region[0] += 1;
        }
    }

    // An Integer with a range up to an end of the type.
    fn extreme_input(&mut self) -> Scalar {
        let [a, b] = [i128::MIN, i128::MAX].map(|end| self.random.pick(&[end, end, -1, 0]));
        Scalar {
            ty: ScalarType::Integer,
            range: Some(Range {
                min: a.min(b),
                max: a.max(b),
            }),
            operation: Operation::Input(9),
        }
    }

    // A region that passes question 1 and that no calls could have grown.
    pub fn other_region(&mut self) -> Vec<u64> {
        match self.random.below(4) {
            0 => {
                self.start();
                self.region()
            }
            1 => self.guard_region(),
            _ => self.changed_region(),
        }
    }

    // The calls that follow are on this region.
    pub fn look_at(&mut self, region: &[u64]) {
        let scalars = readable(region);
        let has_alias = |id: &usize| region[start_of(*id) + ALIAS] != 0;
        let is_odd = |id: &usize| {
            has_alias(id) || has_range_alone(&scalars, *id) || is_shifted_out(&scalars, *id)
        };
        self.odd = (0..scalars.len()).filter(is_odd).collect();
    }

    // Another number for a word.
    pub fn other(&mut self, word: u64) -> u64 {
        let other = match self.random.below(9) {
            0 => word.wrapping_add(1),
            1 => word.wrapping_sub(1),
            2 => word ^ 1 << self.random.below(64),
            3 => self.random.next() % 40,
            4 => self.random.pick(&[0, 1, 2, 128, 129, 511, 512, 513]),
            5 => self.random.pick(&[1 << 16, 1 << 32, 1 << 63, u64::MAX]),
            6 => word.wrapping_add(1 << 16),
            7 => self
                .random
                .pick(&[5, 6, 9, 10, 16, 17, 19, 20, 38, 39, 127]),
            _ => self.random.next(),
        };
        if other == word { !word } else { other }
    }

    // Changes one word, and answers which kind of word it is.
    pub fn damage(&mut self, region: &mut [u64]) -> usize {
        let count = region[0] as usize;
        let kind = self.random.below(COUNT_WORD + 2);
        let at = match kind {
            COUNT_WORD => 0,
            TAIL_WORD if count < LIMIT => {
                let first = start_of(count);
                let near = (REGION - first).min(WORDS);
                match self.random.below(3) {
                    0 => first + self.random.below(near),
                    1 => REGION - 1,
                    _ => first + self.random.below(REGION - first),
                }
            }
            _ => start_of(self.random.below(count.max(1))) + kind.min(WORDS - 1),
        };
        region[at] = self.other(region[at]);
        if at == 0 {
            COUNT_WORD
        } else if at >= start_of(count) {
            TAIL_WORD
        } else {
            (at - 1) % WORDS
        }
    }
}

// Random calls that the nodes of a graph suggest: on what folds look for.
use crate::builders::{COMPARISONS, width_of};
use crate::call::{Call, TypeCode};
use crate::generate::{Source, Spread};
use crate::native::{Operation, Scalar, ScalarType};
use crate::plans::{ADD, AND, EQUAL, OR, SHIFT_LEFT, SHIFT_RIGHT, SUB, TRUNCATE, XOR};
use crate::words::node_words;
use ScalarType::{Bits, Bool};

impl Source {
    // A binary of the node and a constant, which is declared first if there is none.
    fn with_literal(&mut self, scalars: &[Scalar], op: u64, left: u64) -> Call {
        let ty = scalars[left as usize].ty;
        let Some(right) = self.literal_of(scalars, ty) else {
            let value = self.pattern(ty, Spread::Few);
            let ty = ty.into();
            return Call::Constant { ty, value };
        };
        let result = if COMPARISONS.contains(&op) { Bool } else { ty };
        Call::Binary {
            ty: result.into(),
            op,
            left,
            right,
        }
    }

    // A call on a binary node that its operator and its left operand suggest.
    fn on_binary(&mut self, scalars: &[Scalar], id: u64, base: u64) -> Call {
        let ty = scalars[id as usize].ty;
        let op = node_words(&scalars[id as usize], None)[7];
        let comparison = self.random.pick(&[EQUAL, EQUAL + 1]);
        match self.random.below(8) {
            0..3 => self.with_literal(scalars, op, id),
            3 => self.with_literal(scalars, comparison, id),
            4 => {
                let base = match scalars[base as usize].operation {
                    Operation::Binary(_, base, _) if self.random.once_in(2) => base as u64,
                    _ => base,
                };
                let [left, right] = self.random.pick(&[[id, base], [base, id]]);
                Call::Binary {
                    ty: Bool.into(),
                    op: comparison,
                    left,
                    right,
                }
            }
            5 => {
                let op = self.random.pick(&[AND, OR, XOR, SHIFT_LEFT, SHIFT_RIGHT]);
                self.with_literal(scalars, op, id)
            }
            6 => Call::Slice {
                id,
                offset: 0,
                width: self.width().into(),
            },
            _ => Call::Binary {
                ty: ty.into(),
                op: self.random.pick(&[AND, OR]),
                left: id,
                right: id,
            },
        }
    }

    // A concat with the slice that begins where this one ends, or that slice.
    fn on_slice(&mut self, scalars: &[Scalar], low: u64, value: usize, end: u16) -> Call {
        let low_width = width_of(scalars[low as usize].ty);
        let next = self.find(scalars, |scalar| {
            matches!(scalar.operation, Operation::Slice { value: other, offset, .. }
                if other == value && offset == end)
        });
        match next {
            Some(high) => Call::Concat {
                high,
                low,
                low_width,
                width: low_width + width_of(scalars[high as usize].ty),
            },
            None => Call::Slice {
                id: value as u64,
                offset: end.into(),
                width: self.width().into(),
            },
        }
    }

    // A call that a node of the graph suggests.
    pub fn chained(&mut self, scalars: &[Scalar]) -> Option<Call> {
        let id = self.find(scalars, |scalar| {
            !matches!(
                scalar.operation,
                Operation::Constant(_) | Operation::Input(_) | Operation::Effect(_)
            )
        })?;
        Some(match scalars[id as usize].operation {
            Operation::Binary(_, base, _) => self.on_binary(scalars, id, base as u64),
            Operation::Slice {
                value,
                offset,
                width,
            } => self.on_slice(scalars, id, value, offset + width),
            Operation::Refine(source) => {
                let ty = scalars[source].ty;
                let width = width_of(ty);
                let ty = Bits(width as u16).into();
                Call::Unary {
                    ty,
                    op: TRUNCATE,
                    parameter: width,
                    id,
                }
            }
            _ => Call::Slice {
                id,
                offset: self.offset(Some(&scalars[id as usize])),
                width: self.width().into(),
            },
        })
    }

    // A binary that has the value of its left operand.
    pub fn same(&mut self, scalars: &[Scalar]) -> Option<Call> {
        let left = self.find(scalars, |_| true)?;
        let ty = scalars[left as usize].ty;
        let zero = self.find(scalars, |scalar| {
            scalar.ty == ty && scalar.operation == Operation::Constant(0)
        });
        let (op, right) = match zero {
            Some(zero) if self.random.once_in(2) => (self.random.pick(&[ADD, SUB, OR, XOR]), zero),
            _ => (self.random.pick(&[AND, OR]), left),
        };
        Some(Call::Binary {
            ty: ty.into(),
            op,
            left,
            right,
        })
    }

    // A call that mostly stores several nodes.
    pub fn heavy(&mut self, scalars: &[Scalar]) -> Call {
        let sum = self.find(scalars, |scalar| {
            let words = node_words(scalar, None);
            (ADD..=XOR).contains(&words[7])
        });
        match (sum, self.random.below(3)) {
            (Some(id), 0) => Call::Slice {
                id,
                offset: 0,
                width: self.width().into(),
            },
            (_, 1) => match self.chained(scalars) {
                Some(call) => call,
                None => self.unsigned_range(scalars),
            },
            _ => self.unsigned_range(scalars),
        }
    }

    // The builder call whose plain answer the node is.
    pub fn builder_of_node(&mut self, scalar: &Scalar) -> Option<Call> {
        let ty: TypeCode = scalar.ty.into();
        let words = node_words(scalar, None);
        Some(match scalar.operation {
            Operation::Unary(_, id) => Call::Unary {
                ty,
                op: words[7],
                parameter: words[10],
                id: id as u64,
            },
            Operation::Binary(_, left, right) => Call::Binary {
                ty,
                op: words[7],
                left: left as u64,
                right: right as u64,
            },
            Operation::Slice {
                value,
                offset,
                width,
            } => Call::Slice {
                id: value as u64,
                offset: offset.into(),
                width: width.into(),
            },
            Operation::Concat {
                high,
                low,
                low_width,
            } => Call::Concat {
                high: high as u64,
                low: low as u64,
                low_width: low_width.into(),
                width: ty.width,
            },
            _ => return None,
        })
    }
}

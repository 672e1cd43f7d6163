//! A graph as text, one node a line, and as a picture in the language of Graphviz.
use crate::graph::Graph;
use crate::types::{Operation, Range, Scalar, ScalarId};
use std::fmt;

struct RangeText(Option<Range>);

impl fmt::Display for RangeText {
    fn fmt(&self, f: &mut fmt::Formatter<'_>) -> fmt::Result {
        match self.0 {
            Some(range) => write!(f, "{}..={}", range.min, range.max),
            None => write!(f, "any"),
        }
    }
}

/// The operation in the words of docs/RECORDS.md.
struct OperationText<'a>(&'a Operation);

impl fmt::Display for OperationText<'_> {
    fn fmt(&self, f: &mut fmt::Formatter<'_>) -> fmt::Result {
        match self.0 {
            Operation::Constant(value) => write!(f, "constant {value}"),
            Operation::Input(number) => write!(f, "input {number}"),
            Operation::Refine(value) => write!(f, "refine {value}"),
            Operation::Effect(number) => write!(f, "effect {number}"),
            Operation::Unary(operator, value) => write!(f, "{operator:?} {value}"),
            Operation::Binary(operator, left, right) => write!(f, "{operator:?} {left} {right}"),
            Operation::Slice {
                value,
                offset,
                width,
            } => write!(f, "slice {value} {offset} {width}"),
            Operation::Concat {
                high,
                low,
                low_width,
            } => write!(f, "concat {high} {low} {low_width}"),
        }
    }
}

/// One node a line: its id, type, range (`any` without one) and operation, and the node that stands for it since a guard.
///
/// ```
/// use scalars::{Binary, Graph, ScalarType};
///
/// let mut graph = Graph::default();
/// let x = graph.input(0, ScalarType::Bits(8), None);
/// let limit = graph.constant(ScalarType::Bits(8), 5);
/// let below = graph.binary(ScalarType::Bool, Binary::LessUnsigned, x, limit).unwrap();
/// graph.assume_guard(below, true);
/// assert_eq!(
///     graph.to_string(),
///     "0: Bits(8) 0..=255 input 0 alias 3\n\
///      1: Bits(8) 5..=5 constant 5\n\
///      2: Bool 0..=1 LessUnsigned 0 1\n\
///      3: Bits(8) 0..=4 refine 0\n"
/// );
/// ```
impl fmt::Display for Graph {
    fn fmt(&self, f: &mut fmt::Formatter<'_>) -> fmt::Result {
        for (id, scalar) in self.scalars.iter().enumerate() {
            let (range, operation) = (RangeText(scalar.range), OperationText(&scalar.operation));
            write!(f, "{id}: {:?} {range} {operation}", scalar.ty)?;
            if let Some(alias) = self.alias(id) {
                write!(f, " alias {alias}")?;
            }
            writeln!(f)?;
        }
        Ok(())
    }
}

/// A picture of a graph: its text is a digraph for Graphviz' `dot`.
///
/// An arrow goes from an operand to its node; a dashed one from a node to the node that stands for it since a guard. A
/// node that a guard narrowed is yellow, one that a retain would drop grey and dotted.
pub struct Picture<'a> {
    graph: &'a Graph,
    keep: Option<&'a [bool]>,
}

impl Graph {
    /// The picture of the graph.
    ///
    /// ```
    /// use scalars::{Graph, ScalarType};
    ///
    /// let mut graph = Graph::default();
    /// graph.input(0, ScalarType::Bool, None);
    /// assert!(graph.picture().to_string().contains("0: input 0"));
    /// ```
    pub fn picture(&self) -> Picture<'_> {
        Picture {
            graph: self,
            keep: None,
        }
    }
}

impl<'a> Picture<'a> {
    /// The picture in which the nodes whose element is false are drawn as dropped.
    pub fn dropping(self, keep: &'a [bool]) -> Self {
        Picture {
            keep: Some(keep),
            ..self
        }
    }

    fn is_dropped(&self, id: ScalarId) -> bool {
        self.keep
            .is_some_and(|keep| keep.get(id).is_some_and(|kept| !kept))
    }

    fn look(&self, id: ScalarId) -> &'static str {
        if self.is_dropped(id) {
            "style=\"filled,dotted\", fillcolor=gray90, fontcolor=gray40"
        } else if self.graph.alias(id).is_some() {
            "style=filled, fillcolor=lightyellow"
        } else {
            "style=solid"
        }
    }

    fn node(&self, f: &mut fmt::Formatter<'_>, id: ScalarId, scalar: &Scalar) -> fmt::Result {
        let (range, operation) = (RangeText(scalar.range), OperationText(&scalar.operation));
        let look = self.look(id);
        writeln!(
            f,
            "    n{id} [label=\"{id}: {operation}\\n{:?}, {range}\", {look}];",
            scalar.ty
        )?;
        for (operand, place) in operands(&scalar.operation).into_iter().flatten() {
            writeln!(f, "    n{operand} -> n{id} [label=\"{place}\"];")?;
        }
        if let Some(alias) = self.graph.alias(id) {
            writeln!(f, "    n{id} -> n{alias} [style=dashed, constraint=false];")?;
        }
        Ok(())
    }
}

/// The operands of an operation, with their places where there are two.
fn operands(operation: &Operation) -> [Option<(ScalarId, &'static str)>; 2] {
    match *operation {
        Operation::Constant(_) | Operation::Input(_) | Operation::Effect(_) => [None, None],
        Operation::Refine(value) | Operation::Unary(_, value) | Operation::Slice { value, .. } => {
            [Some((value, "")), None]
        }
        Operation::Binary(_, left, right) => [Some((left, "left")), Some((right, "right"))],
        Operation::Concat { high, low, .. } => [Some((high, "high")), Some((low, "low"))],
    }
}

impl fmt::Display for Picture<'_> {
    fn fmt(&self, f: &mut fmt::Formatter<'_>) -> fmt::Result {
        writeln!(f, "digraph scalars {{")?;
        writeln!(
            f,
            "    node [shape=box, fontname=\"Helvetica\", fontsize=11];"
        )?;
        writeln!(f, "    edge [fontname=\"Helvetica\", fontsize=9];")?;
        for (id, scalar) in self.graph.scalars.iter().enumerate() {
            self.node(f, id, scalar)?;
        }
        writeln!(f, "}}")
    }
}

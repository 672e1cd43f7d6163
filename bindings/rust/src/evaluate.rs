//! The evaluators, and guards as a comparison of two nodes.
use crate::answer::{expected, granted, value_or_none, words_or_none};
use crate::graph::Graph;
use crate::library;
use crate::refusal::Refusal;
use crate::types::{Binary, ScalarId, ScalarType, Unary};

/// What the operator gives for a value of any type.
///
/// # Panics
/// If it is refused: 2, where the original panics or shifts too far.
#[track_caller]
pub fn evaluate_unary(operation: Unary, value: u128) -> Option<u128> {
    expected(try_evaluate_unary(operation, value))
}

/// As [`evaluate_unary`], with the refusal as an answer.
pub fn try_evaluate_unary(operation: Unary, value: u128) -> Result<Option<u128>, Refusal> {
    value_or_none(library::evaluate_unary(operation.code(), value))
}

/// What the operator gives in a node of the type.
///
/// ```
/// use scalars::{Binary, ScalarType, evaluate_binary};
///
/// assert_eq!(evaluate_binary(Binary::Add, ScalarType::Bits(8), 250, 10), Some(4));
/// assert_eq!(evaluate_binary(Binary::DivideUnsigned, ScalarType::Bits(8), 250, 0), None);
/// ```
///
/// # Panics
/// If it is refused: 2, where the original panics or shifts too far.
#[track_caller]
pub fn evaluate_binary(operation: Binary, ty: ScalarType, a: u128, b: u128) -> Option<u128> {
    expected(try_evaluate_binary(operation, ty, a, b))
}

/// As [`evaluate_binary`], with the refusal as an answer.
pub fn try_evaluate_binary(
    operation: Binary,
    ty: ScalarType,
    a: u128,
    b: u128,
) -> Result<Option<u128>, Refusal> {
    value_or_none(library::evaluate_binary(operation.code(), ty.code(), a, b))
}

/// The largest number of that many bits.
///
/// # Panics
/// If it is refused: 2, where the original panics or shifts too far.
#[track_caller]
pub fn mask(width: u16) -> u128 {
    expected(try_mask(width))
}

/// As [`mask`], with the refusal as an answer.
pub fn try_mask(width: u16) -> Result<u128, Refusal> {
    Ok(value_or_none(library::mask(width.into()))?.unwrap_or_default())
}

/// A comparison of two nodes and its expected answer.
#[derive(Clone, Copy, Debug, PartialEq, Eq, Hash)]
pub struct Guard {
    pub operation: Binary,
    pub left: ScalarId,
    pub right: ScalarId,
    pub expected: bool,
    /// Both nodes' ranges lie in 0 to 2^64 - 1, so that the low 64 bits of their values decide.
    pub host64: bool,
}

/// The comparison behind a condition and its BoolNots, as it is stored; None if there is none.
///
/// ```
/// use scalars::{Binary, Graph, ScalarType, guard};
///
/// let mut graph = Graph::default();
/// let x = graph.input(0, ScalarType::Bits(8), None);
/// let y = graph.input(1, ScalarType::Bits(8), None);
/// let less = graph.binary(ScalarType::Bool, Binary::LessUnsigned, x, y).unwrap();
/// let found = guard(&graph, less, true).unwrap();
/// assert!(found.host64 && found.matches(3, 4) && !found.matches(4, 4));
/// ```
///
/// # Panics
/// If it is refused: 3 (where the original panics) or 4 (a condition that is not Bool).
#[track_caller]
pub fn guard(graph: &Graph, condition: ScalarId, expect: bool) -> Option<Guard> {
    expected(try_guard(graph, condition, expect))
}

/// As [`guard`], with the refusal as an answer.
pub fn try_guard(
    graph: &Graph,
    condition: ScalarId,
    expect: bool,
) -> Result<Option<Guard>, Refusal> {
    let words = words_or_none(graph.region().guard(condition as u64, expect))?;
    Ok(
        words.map(|[operator, left, right, expected, host64]| Guard {
            operation: Binary::from_code(operator).expect("a comparison"),
            left: left as ScalarId,
            right: right as ScalarId,
            expected: expected == 1,
            host64: host64 == 1,
        }),
    )
}

impl Guard {
    /// Does the comparison of two values give the expected answer?
    ///
    /// # Panics
    /// If it is refused: 4, for an operator that is no comparison (the original compares its result with 0), or with
    /// host64 a signed one (where the original panics).
    #[inline(always)]
    #[track_caller]
    pub fn matches(self, left: u128, right: u128) -> bool {
        expected(self.try_matches(left, right))
    }

    /// As [`Guard::matches`], with the refusal as an answer.
    pub fn try_matches(self, left: u128, right: u128) -> Result<bool, Refusal> {
        let operator = self.operation.code();
        let answer = library::matches(operator, self.expected, self.host64, left, right);
        Ok(granted(answer)? == 1)
    }
}

//! The graph: the calls of the library with the original's names and shapes.
use crate::answer::{expected, granted, id, id_or_none, value_or_none};
use crate::library::{NODES, Region};
use crate::refusal::Refusal;
use crate::types::{Binary, InputId, Range, Scalar, ScalarId, ScalarType, Unary, alias_of};
use std::fmt;
use std::ops::Deref;

/// What a graph shows of itself, to be read through it: `graph.scalars`.
#[derive(Debug)]
pub struct Nodes {
    /// The nodes by their ids. A call adds its new nodes at the end, [`Graph::return_to`] takes back those since the mark;
    /// [`Graph::retain`] makes them anew.
    pub scalars: Vec<Scalar>,
}

impl Nodes {
    /// So many nodes, with room for as many as a graph can hold: a call that adds one never moves the others.
    fn with_room(nodes: &[Scalar]) -> Self {
        let mut scalars = Vec::with_capacity(NODES);
        scalars.extend_from_slice(nodes);
        Nodes { scalars }
    }
}

impl Clone for Nodes {
    fn clone(&self) -> Self {
        Nodes::with_room(&self.scalars)
    }
}

/// A graph of at most 512 nodes, simplified while it is built.
///
/// Each call has the original's name and shape. Where the original has no answer (a width above 128, an id of no node,
/// types that do not fit, no room ..) the call is refused and the graph is as it was: a method of the original's shape
/// panics with the [`Refusal`]'s words, and its twin `try_..` answers it.
///
/// ```
/// use scalars::{Binary, Graph, ScalarType};
///
/// let mut graph = Graph::default();
/// let x = graph.input(0, ScalarType::Bits(8), None);
/// let zero = graph.constant(ScalarType::Bits(8), 0);
/// assert_eq!(graph.binary(ScalarType::Bits(8), Binary::Add, x, zero), Some(x));
/// assert_eq!(graph.scalars.len(), 2);
/// ```
///
/// The nodes, `graph.scalars`, are read and not changed:
///
/// ```compile_fail
/// let mut graph = scalars::Graph::default();
/// graph.scalars.clear();
/// ```
#[derive(Clone)]
pub struct Graph {
    nodes: Nodes,
    region: Region,
}

impl Deref for Graph {
    type Target = Nodes;

    fn deref(&self) -> &Nodes {
        &self.nodes
    }
}

impl Default for Graph {
    /// The empty graph.
    fn default() -> Self {
        Graph {
            nodes: Nodes::with_room(&[]),
            region: Region::empty(),
        }
    }
}

impl fmt::Debug for Graph {
    fn fmt(&self, f: &mut fmt::Formatter<'_>) -> fmt::Result {
        let aliases: Vec<(ScalarId, ScalarId)> = (0..self.region.count())
            .filter_map(|id| Some((id, self.alias(id)?)))
            .collect();
        f.debug_struct("Graph")
            .field("scalars", &self.scalars)
            .field("aliases", &aliases)
            .field("marks", &self.region.marks().collect::<Vec<_>>())
            .finish()
    }
}

impl Graph {
    /// Takes over the nodes that a call has added.
    fn grown<T>(&mut self, answer: T) -> T {
        for id in self.scalars.len()..self.region.count() {
            self.nodes.scalars.push(Scalar::of(self.region.node(id)));
        }
        answer
    }

    /// A constant. Of Bits the low bits are taken.
    ///
    /// # Panics
    /// If it is refused: 2, 5 (a Bool that is neither 0 nor 1, which the original takes) or 7.
    #[track_caller]
    pub fn constant(&mut self, ty: ScalarType, value: u128) -> ScalarId {
        expected(self.try_constant(ty, value))
    }

    /// As [`Graph::constant`], with the refusal as an answer.
    pub fn try_constant(&mut self, ty: ScalarType, value: u128) -> Result<ScalarId, Refusal> {
        let answer = self.region.constant(ty.code(), value);
        self.grown(id(answer))
    }

    /// An input by its number; without a range it has its type's.
    ///
    /// # Panics
    /// If it is refused: 2, 5 (a range that is empty or outside the type, which the original takes) or 7.
    #[track_caller]
    pub fn input(&mut self, input: InputId, ty: ScalarType, range: Option<Range>) -> ScalarId {
        expected(self.try_input(input, ty, range))
    }

    /// As [`Graph::input`], with the refusal as an answer.
    pub fn try_input(
        &mut self,
        input: InputId,
        ty: ScalarType,
        range: Option<Range>,
    ) -> Result<ScalarId, Refusal> {
        let ends = range.map(|range| (range.min as u128, range.max as u128));
        let answer = self.region.input(input as u64, ty.code(), ends);
        self.grown(id(answer))
    }

    /// The result of an event outside the graph, by its number.
    ///
    /// # Panics
    /// If it is refused: 2 or 7.
    #[track_caller]
    pub fn effect(&mut self, effect: usize, ty: ScalarType) -> ScalarId {
        expected(self.try_effect(effect, ty))
    }

    /// As [`Graph::effect`], with the refusal as an answer.
    pub fn try_effect(&mut self, effect: usize, ty: ScalarType) -> Result<ScalarId, Refusal> {
        let answer = self.region.effect(effect as u64, ty.code());
        self.grown(id(answer))
    }

    /// The operator on a node.
    ///
    /// # Panics
    /// If it is refused: 2, 3 (where the original panics), 4, 7 or 8.
    #[track_caller]
    pub fn unary(&mut self, ty: ScalarType, operation: Unary, value: ScalarId) -> Option<ScalarId> {
        expected(self.try_unary(ty, operation, value))
    }

    /// As [`Graph::unary`], with the refusal as an answer.
    pub fn try_unary(
        &mut self,
        ty: ScalarType,
        operation: Unary,
        value: ScalarId,
    ) -> Result<Option<ScalarId>, Refusal> {
        let answer = self.region.unary(ty.code(), operation.code(), value as u64);
        self.grown(id_or_none(answer))
    }

    /// The operator on two nodes.
    ///
    /// # Panics
    /// If it is refused: 2, 3 (where the original panics), 4, 7 or 8.
    #[track_caller]
    pub fn binary(
        &mut self,
        ty: ScalarType,
        operation: Binary,
        left: ScalarId,
        right: ScalarId,
    ) -> Option<ScalarId> {
        expected(self.try_binary(ty, operation, left, right))
    }

    /// As [`Graph::binary`], with the refusal as an answer.
    ///
    /// ```
    /// use scalars::{Binary, Graph, Refusal, ScalarType};
    ///
    /// let mut graph = Graph::default();
    /// let x = graph.input(0, ScalarType::Integer, None);
    /// let sum = graph.try_binary(ScalarType::Integer, Binary::Add, x, 7);
    /// assert_eq!(sum, Err(Refusal::Id));
    /// assert_eq!(Refusal::Id.to_string(), "refused 3: an id is not below the number of nodes");
    /// assert_eq!(graph.scalars.len(), 1);
    /// ```
    pub fn try_binary(
        &mut self,
        ty: ScalarType,
        operation: Binary,
        left: ScalarId,
        right: ScalarId,
    ) -> Result<Option<ScalarId>, Refusal> {
        let (left, right) = (left as u64, right as u64);
        let answer = self.region.binary(ty.code(), operation.code(), left, right);
        self.grown(id_or_none(answer))
    }

    /// So many bits of a node, from the offset up.
    ///
    /// # Panics
    /// If it is refused: 2, 3 (where the original panics), 7 or 8.
    #[track_caller]
    pub fn slice(&mut self, value: ScalarId, offset: u16, width: u16) -> ScalarId {
        expected(self.try_slice(value, offset, width))
    }

    /// As [`Graph::slice`], with the refusal as an answer.
    pub fn try_slice(
        &mut self,
        value: ScalarId,
        offset: u16,
        width: u16,
    ) -> Result<ScalarId, Refusal> {
        let answer = self.region.slice(value as u64, offset.into(), width.into());
        self.grown(id(answer))
    }

    /// The bits of one node above so many of another.
    ///
    /// # Panics
    /// If it is refused: 2, 3 (where the original panics), 4, 7 or 8.
    #[track_caller]
    pub fn concat(
        &mut self,
        high: ScalarId,
        low: ScalarId,
        low_width: u16,
        width: u16,
    ) -> ScalarId {
        expected(self.try_concat(high, low, low_width, width))
    }

    /// As [`Graph::concat`], with the refusal as an answer.
    pub fn try_concat(
        &mut self,
        high: ScalarId,
        low: ScalarId,
        low_width: u16,
        width: u16,
    ) -> Result<ScalarId, Refusal> {
        let (high, low) = (high as u64, low as u64);
        let answer = self
            .region
            .concat(high, low, low_width.into(), width.into());
        self.grown(id(answer))
    }

    /// Whether a node of Bits lies from `low` to `high`; None as in the original.
    ///
    /// # Panics
    /// If it is refused: 3 (where the original panics), 7 or 8.
    #[track_caller]
    pub fn unsigned_range(&mut self, value: ScalarId, low: u128, high: u128) -> Option<ScalarId> {
        expected(self.try_unsigned_range(value, low, high))
    }

    /// As [`Graph::unsigned_range`], with the refusal as an answer.
    pub fn try_unsigned_range(
        &mut self,
        value: ScalarId,
        low: u128,
        high: u128,
    ) -> Result<Option<ScalarId>, Refusal> {
        let answer = self.region.unsigned_range(value as u64, low, high);
        self.grown(id_or_none(answer))
    }

    /// Takes a condition to be true or false from here on, and narrows ranges by it. It stays so until a [`Graph::retain`],
    /// or a [`Graph::return_to`] to a mark that was set before.
    ///
    /// ```
    /// use scalars::{Binary, Graph, Range, ScalarType};
    ///
    /// let mut graph = Graph::default();
    /// let angle = graph.input(0, ScalarType::Bits(16), None);
    /// let limit = graph.constant(ScalarType::Bits(16), 200);
    /// let below = graph.binary(ScalarType::Bool, Binary::LessUnsigned, angle, limit).unwrap();
    /// graph.assume_guard(below, true);
    /// let narrowed = graph.resolve(angle);
    /// assert_eq!(graph.scalars[narrowed].range, Some(Range { min: 0, max: 199 }));
    /// ```
    ///
    /// # Panics
    /// If it is refused: 3 (where the original panics), 4 (a condition that is not Bool) or 7.
    #[track_caller]
    pub fn assume_guard(&mut self, condition: ScalarId, expect: bool) {
        expected(self.try_assume_guard(condition, expect));
    }

    /// As [`Graph::assume_guard`], with the refusal as an answer.
    pub fn try_assume_guard(&mut self, condition: ScalarId, expect: bool) -> Result<(), Refusal> {
        let answer = self.region.assume_guard(condition as u64, expect);
        self.grown(granted(answer).map(|_| ()))
    }

    /// Takes a list of up to 32 conditions, each to be true or false as its pair says, in the list's order, each on the graph
    /// that the one before left: as [`Graph::assume_guard`] one after the other, but that none of them is taken where one
    /// is refused. An empty list changes nothing.
    ///
    /// ```
    /// use scalars::{Binary, Graph, Range, Refusal, ScalarType};
    ///
    /// let mut graph = Graph::default();
    /// let angle = graph.input(0, ScalarType::Bits(16), None);
    /// let [low, high] = [20, 200].map(|limit| {
    ///     let limit = graph.constant(ScalarType::Bits(16), limit);
    ///     graph.binary(ScalarType::Bool, Binary::LessUnsigned, angle, limit).unwrap()
    /// });
    /// let refused = graph.try_assume_guards(&[(high, true), (angle, true)]);
    /// assert_eq!(refused, Err(Refusal::Typing));
    /// assert_eq!(graph.resolve(angle), angle);
    /// graph.assume_guards(&[(high, true), (low, false)]);
    /// let narrowed = graph.resolve(angle);
    /// assert_eq!(graph.scalars[narrowed].range, Some(Range { min: 20, max: 199 }));
    /// ```
    ///
    /// # Panics
    /// If it is refused: 11 (more than 32 guards), or what the first guard that is refused is refused: 3, 4 or 7.
    #[track_caller]
    pub fn assume_guards(&mut self, guards: &[(ScalarId, bool)]) {
        expected(self.try_assume_guards(guards));
    }

    /// As [`Graph::assume_guards`], with the refusal as an answer.
    pub fn try_assume_guards(&mut self, guards: &[(ScalarId, bool)]) -> Result<(), Refusal> {
        let answer = self.region.assume_guards(guards);
        self.grown(granted(answer).map(|_| ()))
    }

    /// The node that stands for this one since a guard, or the node itself.
    ///
    /// # Panics
    /// If it is refused: 3, where the original answers the id itself.
    #[track_caller]
    pub fn resolve(&self, value: ScalarId) -> ScalarId {
        expected(self.try_resolve(value))
    }

    /// As [`Graph::resolve`], with the refusal as an answer.
    pub fn try_resolve(&self, value: ScalarId) -> Result<ScalarId, Refusal> {
        id(self.region.resolve(value as u64))
    }

    /// A constant's value.
    ///
    /// # Panics
    /// If it is refused: 3, where the original panics.
    #[track_caller]
    pub fn literal(&self, value: ScalarId) -> Option<u128> {
        expected(self.try_literal(value))
    }

    /// As [`Graph::literal`], with the refusal as an answer.
    pub fn try_literal(&self, value: ScalarId) -> Result<Option<u128>, Refusal> {
        value_or_none(self.region.literal(value as u64))
    }

    /// Keeps the nodes whose element is true and drops the others, all aliases and all marks. Answers each node's new id,
    /// `usize::MAX` for a dropped one.
    ///
    /// ```
    /// use scalars::{Graph, ScalarType};
    ///
    /// let mut graph = Graph::default();
    /// let x = graph.input(0, ScalarType::Bool, None);
    /// let y = graph.input(1, ScalarType::Bool, None);
    /// assert_eq!(graph.retain(&[false, true]), [usize::MAX, 0]);
    /// assert_eq!(graph.scalars.len(), 1);
    /// # let _ = (x, y);
    /// ```
    ///
    /// # Panics
    /// If it is refused: 6. The original panics on a list that is too short, and keeps a node whose operand is dropped.
    #[track_caller]
    pub fn retain(&mut self, keep: &[bool]) -> Vec<ScalarId> {
        expected(self.try_retain(keep))
    }

    /// As [`Graph::retain`], with the refusal as an answer.
    pub fn try_retain(&mut self, keep: &[bool]) -> Result<Vec<ScalarId>, Refusal> {
        let mut mapping = vec![0; self.region.count()];
        granted(self.region.retain(keep, &mut mapping))?;
        self.nodes.scalars.clear();
        Ok(self.grown(mapping))
    }

    /// Sets a mark, which remembers the graph as it is, and answers its number: how many marks stood before it.
    ///
    /// A translator that meets a branch sets a mark, assumes the condition, builds one arm, returns to the mark and builds
    /// the other arm without it:
    ///
    /// ```
    /// use scalars::{Binary, Graph, ScalarId, ScalarType};
    ///
    /// fn is_below(graph: &mut Graph, x: ScalarId, limit: ScalarId) -> ScalarId {
    ///     graph.binary(ScalarType::Bool, Binary::LessUnsigned, x, limit).unwrap()
    /// }
    ///
    /// let mut graph = Graph::default();
    /// let x = graph.input(0, ScalarType::Bits(8), None);
    /// let five = graph.constant(ScalarType::Bits(8), 5);
    /// let condition = is_below(&mut graph, x, five);
    ///
    /// let mark = graph.mark();
    /// graph.assume_guard(condition, true);
    /// let known = is_below(&mut graph, x, five);
    /// assert_eq!(graph.literal(known), Some(1));
    ///
    /// graph.return_to(mark);
    /// assert_eq!(graph.scalars.len(), 3);
    /// let open = is_below(&mut graph, x, five);
    /// assert_eq!(graph.literal(open), None);
    /// assert_eq!(open, condition);
    /// ```
    ///
    /// # Panics
    /// If it is refused: 9.
    #[track_caller]
    pub fn mark(&mut self) -> usize {
        expected(self.try_mark())
    }

    /// As [`Graph::mark`], with the refusal as an answer.
    pub fn try_mark(&mut self) -> Result<usize, Refusal> {
        granted(self.region.mark()).map(|mark| mark as usize)
    }

    /// Makes the graph what it was at a mark: the nodes added since are gone, and those from before have the aliases that
    /// they had. Guards and declarations since the mark no longer count. The mark stays, and later ones are dropped.
    ///
    /// # Panics
    /// If it is refused: 10.
    #[track_caller]
    pub fn return_to(&mut self, mark: usize) {
        expected(self.try_return_to(mark));
    }

    /// As [`Graph::return_to`], with the refusal as an answer.
    pub fn try_return_to(&mut self, mark: usize) -> Result<(), Refusal> {
        granted(self.region.return_to(mark as u64))?;
        self.nodes.scalars.truncate(self.region.count());
        Ok(())
    }

    /// How many marks stand: the number that [`Graph::mark`] would answer, unless it is refused.
    pub fn marks(&self) -> usize {
        self.region.marks().len()
    }

    /// The node that stands for this one since a guard, if one does: one step of [`Graph::resolve`].
    ///
    /// # Panics
    /// If there is no such node.
    #[track_caller]
    pub fn alias(&self, value: ScalarId) -> Option<ScalarId> {
        assert!(value < self.region.count(), "{}", Refusal::Id);
        alias_of(self.region.node(value))
    }

    pub(crate) fn region(&self) -> &Region {
        &self.region
    }
}

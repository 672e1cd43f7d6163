// The region, written from document 01's text: the words of a graph, the graph of words, and question 1.
use crate::native::opened;
use crate::native::{Binary, Graph, Operation, Range, Scalar, ScalarType, Unary};
use crate::operators::{self, BINARY_CODE, UNARY_CODE};

// Stands in lent words before a call, where it must leave them alone.
pub const UNTOUCHED: u64 = 0x5ca1_ab1e_5ca1_ab1e;
pub const REGION: usize = 6145;
pub const WORDS: usize = 12;
pub const LIMIT: usize = 512;
// The place of the alias among a node's words.
pub const ALIAS: usize = 11;

static ZEROS: [u64; REGION] = [0; REGION];

const UNARY: u64 = UNARY_CODE as u64;
const BINARY: u64 = BINARY_CODE as u64;

// A node of the region: what the original keeps in its list, and the alias.
pub struct Node {
    pub scalar: Scalar,
    pub alias: Option<usize>,
}

// The word where a node starts.
pub fn start_of(id: usize) -> usize {
    1 + WORDS * id
}

pub fn halves(value: u128) -> [u64; 2] {
    [value as u64, (value >> 64) as u64]
}

pub fn joined(low: u64, high: u64) -> u128 {
    u128::from(high) << 64 | u128::from(low)
}

fn type_words(ty: ScalarType) -> [u64; 2] {
    match ty {
        ScalarType::Bool => [0, 0],
        ScalarType::Bits(width) => [1, width.into()],
        ScalarType::Integer => [2, 0],
    }
}

fn range_words(range: Option<Range>) -> [u64; 5] {
    let Some(range) = range else {
        return [0; 5];
    };
    let [min_low, min_high] = halves(range.min as u128);
    let [max_low, max_high] = halves(range.max as u128);
    [1, min_low, min_high, max_low, max_high]
}

fn unary_words(operation: Unary) -> [u64; 2] {
    let (place, width) = match operation {
        Unary::BoolNot => (0, 0),
        Unary::BitNot => (1, 0),
        Unary::Negate => (2, 0),
        Unary::Truncate(width) => (3, width),
        Unary::SignExtend(width) => (4, width),
        Unary::LeadingZeros(width) => (5, width),
        Unary::TrailingZeros(width) => (6, width),
    };
    [UNARY + place, width.into()]
}

pub fn binary_code(operation: Binary) -> u64 {
    let place = operators::BINARY
        .iter()
        .position(|other| *other == operation);
    BINARY + place.expect("every operator is listed") as u64
}

pub fn alias_word(alias: Option<usize>) -> u64 {
    alias.map_or(0, |id| id as u64 + 1)
}

fn operation_words(operation: &Operation) -> [u64; 4] {
    match *operation {
        Operation::Constant(value) => {
            let [low, high] = halves(value);
            [0, low, high, 0]
        }
        Operation::Input(number) => [1, number as u64, 0, 0],
        Operation::Refine(id) => [2, id as u64, 0, 0],
        Operation::Effect(number) => [3, number as u64, 0, 0],
        Operation::Slice {
            value,
            offset,
            width,
        } => [4, value as u64, offset.into(), width.into()],
        Operation::Concat {
            high,
            low,
            low_width,
        } => [5, high as u64, low as u64, low_width.into()],
        Operation::Unary(operation, id) => {
            let [code, width] = unary_words(operation);
            [code, id as u64, 0, width]
        }
        Operation::Binary(operation, left, right) => {
            [binary_code(operation), left as u64, right as u64, 0]
        }
    }
}

pub fn node_words(scalar: &Scalar, alias: Option<usize>) -> [u64; WORDS] {
    let mut words = [0; WORDS];
    words[..2].copy_from_slice(&type_words(scalar.ty));
    words[2..7].copy_from_slice(&range_words(scalar.range));
    words[7..11].copy_from_slice(&operation_words(&scalar.operation));
    words[ALIAS] = alias_word(alias);
    words
}

// Writes a graph as the region's words.
pub fn encode(graph: &Graph, words: &mut [u64]) {
    words.fill(0);
    encode_from(graph, 0, words);
}

// Writes the nodes past so many, where the words have those already.
pub fn encode_from(graph: &Graph, count: usize, words: &mut [u64]) {
    words[0] = graph.scalars.len() as u64;
    for (id, scalar) in graph.scalars.iter().enumerate().skip(count) {
        let node = node_words(scalar, opened::alias(graph, id));
        words[start_of(id)..][..WORDS].copy_from_slice(&node);
    }
}

// Writes every node's alias.
pub fn encode_aliases(graph: &Graph, words: &mut [u64]) {
    for id in 0..graph.scalars.len() {
        words[start_of(id) + ALIAS] = alias_word(opened::alias(graph, id));
    }
}

fn unary_of(code: u64, width: u16) -> Unary {
    match code - UNARY {
        0 => Unary::BoolNot,
        1 => Unary::BitNot,
        2 => Unary::Negate,
        3 => Unary::Truncate(width),
        4 => Unary::SignExtend(width),
        5 => Unary::LeadingZeros(width),
        _ => Unary::TrailingZeros(width),
    }
}

fn operation_of(words: &[u64]) -> Option<Operation> {
    let id = |at: usize| words[at] as usize;
    let width = |at: usize| u16::try_from(words[at]).ok();
    Some(match words[0] {
        0 => Operation::Constant(joined(words[1], words[2])),
        1 => Operation::Input(id(1)),
        2 => Operation::Refine(id(1)),
        3 => Operation::Effect(id(1)),
        4 => Operation::Slice {
            value: id(1),
            offset: width(2)?,
            width: width(3)?,
        },
        5 => Operation::Concat {
            high: id(1),
            low: id(2),
            low_width: width(3)?,
        },
        code @ 10..=16 => Operation::Unary(unary_of(code, width(3)?), id(1)),
        code @ 20..=38 => {
            Operation::Binary(operators::BINARY[(code - BINARY) as usize], id(1), id(2))
        }
        _ => return None,
    })
}

// What a node's words say, if each code is one that there is. Words that are not used are not looked at.
pub fn read_node(words: &[u64]) -> Option<Node> {
    let ty = match words[0] {
        0 => ScalarType::Bool,
        1 => ScalarType::Bits(u16::try_from(words[1]).ok()?),
        2 => ScalarType::Integer,
        _ => return None,
    };
    let range = match words[2] {
        0 => None,
        1 => Some(Range {
            min: joined(words[3], words[4]) as i128,
            max: joined(words[5], words[6]) as i128,
        }),
        _ => return None,
    };
    let operation = operation_of(&words[7..11])?;
    let alias = words[ALIAS].checked_sub(1).map(|id| id as usize);
    Some(Node {
        scalar: Scalar {
            ty,
            range,
            operation,
        },
        alias,
    })
}

// Is the range not empty and inside the type?
pub fn is_range_of(range: Range, ty: ScalarType) -> bool {
    let Range { min, max } = range;
    min <= max
        && match ty {
            ScalarType::Bool => min >= 0 && max <= 1,
            ScalarType::Bits(width) if width < 127 => min >= 0 && max < 1 << width,
            ScalarType::Bits(_) => min >= 0,
            ScalarType::Integer => true,
        }
}

pub fn operands(operation: &Operation) -> Vec<usize> {
    match *operation {
        Operation::Constant(_) | Operation::Input(_) | Operation::Effect(_) => vec![],
        Operation::Refine(id) | Operation::Unary(_, id) => vec![id],
        Operation::Slice { value, .. } => vec![value],
        Operation::Concat { high, low, .. } => vec![high, low],
        Operation::Binary(_, left, right) => vec![left, right],
    }
}

fn widths(scalar: &Scalar) -> [u16; 2] {
    let of_type = match scalar.ty {
        ScalarType::Bits(width) => width,
        ScalarType::Bool | ScalarType::Integer => 0,
    };
    let of_operation = match scalar.operation {
        Operation::Slice { width, .. } => width,
        Operation::Concat { low_width, .. } => low_width,
        Operation::Unary(operation, _) => unary_words(operation)[1] as u16,
        _ => 0,
    };
    [of_type, of_operation]
}

pub fn is_node(node: &Node, id: usize, count: usize) -> bool {
    let scalar = &node.scalar;
    let offset = match scalar.operation {
        Operation::Slice { offset, .. } => offset,
        _ => 0,
    };
    widths(scalar).iter().all(|width| *width <= 128)
        && offset <= 127
        && operands(&scalar.operation)
            .iter()
            .all(|operand| *operand < id)
        && node.alias.is_none_or(|alias| id < alias && alias < count)
        && scalar
            .range
            .is_none_or(|range| is_range_of(range, scalar.ty))
}

// Question 1: the nodes of the region, if it is a graph.
pub fn nodes_of(words: &[u64]) -> Option<Vec<Node>> {
    if words.len() != REGION || words[0] > LIMIT as u64 {
        return None;
    }
    let count = words[0] as usize;
    let (used, rest) = words.split_at(start_of(count));
    if rest != &ZEROS[..rest.len()] {
        return None;
    }
    let mut nodes = Vec::with_capacity(count);
    for (id, words) in used[1..].chunks(WORDS).enumerate() {
        let node = read_node(words)?;
        if node_words(&node.scalar, node.alias) != words || !is_node(&node, id, count) {
            return None;
        }
        nodes.push(node);
    }
    Some(nodes)
}

// The nodes of any words, up to the first that says nothing.
pub fn readable(words: &[u64]) -> Vec<Scalar> {
    let count = words.first().map_or(0, |count| *count).min(LIMIT as u64) as usize;
    let nodes = words.get(1..).unwrap_or(&[]).chunks_exact(WORDS);
    nodes
        .take(count)
        .map_while(|words| read_node(words).map(|node| node.scalar))
        .collect()
}

// The graph of the region, if it is one, with both maps filled from it.
pub fn graph_of(words: &[u64]) -> Option<Graph> {
    let nodes = nodes_of(words)?;
    let aliases: Vec<_> = nodes
        .iter()
        .enumerate()
        .filter_map(|(id, node)| Some((id, node.alias?)))
        .collect();
    let scalars = nodes.into_iter().map(|node| node.scalar).collect();
    Some(opened::filled(scalars, &aliases))
}

// How long a call takes on each side, by the number of nodes: `effect`, the thinnest over `insert`, each builder, a
// retain and a guard; marks are in mark_times.rs, lists of guards in list_times.rs. The original is timed as it is, not
// the metered one. `one` makes the calls of one builder alone, for a count of their instructions.
use crate::call::{Call, Ready, Side};
use crate::list_times;
use crate::mark_times;
use crate::marks::MARKS;
use crate::native;
use crate::original::apply;
use crate::plain::{Binary, Graph, Range, ScalarType, Unary};
use crate::words::{REGION, encode};
use ScalarType::{Bits, Bool, Integer};
use std::hint::black_box;
use std::time::Instant;

// The last is a full graph.
const NODES: [usize; 4] = [16, 128, 500, 512];
pub const BUILDER_NODES: [usize; 3] = [16, 128, 500];
const NEW: usize = 10;
// The largest value of an input that is divided by.
const DIVISOR: i128 = 1000;
pub const COPIES: usize = 8;
pub const CALLS: usize = 4_000;
// The smallest of so many measurements is taken.
const TIMES: usize = 30;

// A binary operator, with the type of its result.
#[derive(Clone, Copy)]
pub enum Pair {
    Add,
    Mul,
    Equal,
    DivideSigned,
    RemainderSigned,
    DivideUnsigned,
    RemainderUnsigned,
}

impl Pair {
    // As the original has it, and by its code.
    fn operator(self) -> (Binary, u64) {
        match self {
            Pair::Add => (Binary::Add, 20),
            Pair::Mul => (Binary::Mul, 22),
            Pair::Equal => (Binary::Equal, 29),
            Pair::DivideSigned => (Binary::DivideSigned, 35),
            Pair::RemainderSigned => (Binary::RemainderSigned, 36),
            Pair::DivideUnsigned => (Binary::DivideUnsigned, 37),
            Pair::RemainderUnsigned => (Binary::RemainderUnsigned, 38),
        }
    }

    // As the binding has them.
    #[cfg(library)]
    fn bound(self) -> (scalars::ScalarType, scalars::Binary) {
        use scalars::Binary as b;
        use scalars::ScalarType::{Bits, Bool, Integer};
        match self {
            Pair::Add => (Bits(16), b::Add),
            Pair::Mul => (Bits(16), b::Mul),
            Pair::Equal => (Bool, b::Equal),
            Pair::DivideSigned => (Integer, b::DivideSigned),
            Pair::RemainderSigned => (Integer, b::RemainderSigned),
            Pair::DivideUnsigned => (Integer, b::DivideUnsigned),
            Pair::RemainderUnsigned => (Integer, b::RemainderUnsigned),
        }
    }

    fn result(self) -> (ScalarType, native::ScalarType) {
        match self {
            Pair::Add | Pair::Mul => (Bits(16), native::ScalarType::Bits(16)),
            Pair::Equal => (Bool, native::ScalarType::Bool),
            _ => (Integer, native::ScalarType::Integer),
        }
    }
}

// A call as both sides have it, on nodes of Bits(16) but for Effect, Wide and Divisor.
#[derive(Clone, Copy)]
pub enum Work {
    Effect(usize),
    Leaf(usize),
    Wide(usize),
    // An input of an Integer from 1 to 1,000, which a division can have on its right.
    Divisor(usize),
    Constant(usize),
    Unary(usize),
    Truncate(usize),
    Binary(Pair, usize),
    Slice(usize),
    Concat(usize),
    // Of 64 and 64 bits.
    WideConcat(usize),
    UnsignedRange(usize),
    // An input of two bits, the constant 1 of two bits, an And of two nodes of two bits, a concat of two bits and so many
    // more, and a slice: of these is the slowest call made.
    Narrow(usize),
    One,
    Masked(usize, usize),
    Above(usize, usize, u16),
    Cut(usize, u16, u16),
    // A constant, whether a node is below another, and a guard on such a condition.
    Limit,
    IsBelow(usize, usize),
    Guard(usize),
}

// A builder by its name, the leaves that it works on, and its call on a leaf and the one after it.
type Builder = (&'static str, fn(usize) -> Work, fn(usize) -> Work);

const BUILDERS: [Builder; 14] = [
    ("constant", Work::Leaf, Work::Constant),
    ("unary", Work::Leaf, Work::Unary),
    ("truncate", Work::Leaf, Work::Truncate),
    ("add", Work::Leaf, |id| Work::Binary(Pair::Add, id)),
    ("mul", Work::Leaf, |id| Work::Binary(Pair::Mul, id)),
    ("equal", Work::Leaf, |id| Work::Binary(Pair::Equal, id)),
    ("slice", Work::Leaf, Work::Slice),
    ("concat", Work::Leaf, Work::Concat),
    ("concat of 64 and 64", Work::Wide, Work::WideConcat),
    ("unsigned range", Work::Leaf, Work::UnsignedRange),
    ("divide signed", Work::Divisor, |id| {
        Work::Binary(Pair::DivideSigned, id)
    }),
    ("remainder signed", Work::Divisor, |id| {
        Work::Binary(Pair::RemainderSigned, id)
    }),
    ("divide unsigned", Work::Divisor, |id| {
        Work::Binary(Pair::DivideUnsigned, id)
    }),
    ("remainder unsigned", Work::Divisor, |id| {
        Work::Binary(Pair::RemainderUnsigned, id)
    }),
];

impl Work {
    fn on(self, graph: &mut Graph) -> Option<usize> {
        match self {
            Work::Effect(number) => Some(graph.effect(number, Integer)),
            Work::Leaf(number) => Some(graph.effect(number, Bits(16))),
            Work::Wide(number) => Some(graph.effect(number, Bits(64))),
            Work::Divisor(number) => {
                let range = Range {
                    min: 1,
                    max: DIVISOR,
                };
                Some(graph.input(number, Integer, Some(range)))
            }
            Work::Constant(id) => Some(graph.constant(Bits(16), 1000 + id as u128)),
            Work::Unary(id) => graph.unary(Bits(16), Unary::BitNot, id),
            Work::Truncate(id) => graph.unary(Bits(8), Unary::Truncate(8), id),
            Work::Binary(pair, id) => graph.binary(pair.result().0, pair.operator().0, id, id + 1),
            Work::Slice(id) => Some(graph.slice(id, 4, 8)),
            Work::Concat(id) => Some(graph.concat(id, id + 1, 16, 32)),
            Work::WideConcat(id) => Some(graph.concat(id, id + 1, 64, 128)),
            Work::UnsignedRange(id) => graph.unsigned_range(id, 3, 200),
            Work::Narrow(number) => Some(graph.input(number, Bits(2), None)),
            Work::One => Some(graph.constant(Bits(2), 1)),
            Work::Masked(id, mask) => graph.binary(Bits(2), Binary::And, id, mask),
            Work::Above(high, low, width) => Some(graph.concat(high, low, width, width + 2)),
            Work::Cut(id, offset, width) => Some(graph.slice(id, offset, width)),
            Work::Limit => Some(graph.constant(Bits(16), 200)),
            Work::IsBelow(id, limit) => graph.binary(Bool, Binary::LessUnsigned, id, limit),
            Work::Guard(condition) => {
                graph.assume_guard(condition, true);
                None
            }
        }
    }

    // Through the Rust binding, whose methods have the original's shape.
    #[cfg(library)]
    fn bound(self, graph: &mut scalars::Graph) -> Option<usize> {
        use scalars::ScalarType::{Bits, Integer};
        match self {
            Work::Effect(number) => Some(graph.effect(number, Integer)),
            Work::Leaf(number) => Some(graph.effect(number, Bits(16))),
            Work::Wide(number) => Some(graph.effect(number, Bits(64))),
            Work::Divisor(number) => {
                let range = scalars::Range {
                    min: 1,
                    max: DIVISOR,
                };
                Some(graph.input(number, Integer, Some(range)))
            }
            Work::Constant(id) => Some(graph.constant(Bits(16), 1000 + id as u128)),
            Work::Unary(id) => graph.unary(Bits(16), scalars::Unary::BitNot, id),
            Work::Truncate(id) => graph.unary(Bits(8), scalars::Unary::Truncate(8), id),
            Work::Binary(pair, id) => {
                let (ty, operator) = pair.bound();
                graph.binary(ty, operator, id, id + 1)
            }
            Work::Slice(id) => Some(graph.slice(id, 4, 8)),
            Work::Concat(id) => Some(graph.concat(id, id + 1, 16, 32)),
            Work::WideConcat(id) => Some(graph.concat(id, id + 1, 64, 128)),
            Work::UnsignedRange(id) => graph.unsigned_range(id, 3, 200),
            Work::Limit => Some(graph.constant(Bits(16), 200)),
            Work::IsBelow(id, limit) => graph.binary(
                scalars::ScalarType::Bool,
                scalars::Binary::LessUnsigned,
                id,
                limit,
            ),
            Work::Guard(condition) => {
                graph.assume_guard(condition, true);
                None
            }
            _ => unreachable!("not timed through the binding"),
        }
    }

    fn call(self) -> Call {
        match self {
            Work::Effect(_) | Work::Leaf(_) | Work::Wide(_) | Work::Divisor(_) => self.leaf(),
            Work::Constant(_) | Work::Limit => self.constant(),
            Work::Unary(id) => unary(native::ScalarType::Bits(16), 11, 0, id),
            Work::Truncate(id) => unary(native::ScalarType::Bits(8), 13, 8, id),
            Work::Binary(pair, id) => binary(pair.result().1, pair.operator().1, id, id + 1),
            Work::Slice(id) | Work::Concat(id) | Work::WideConcat(id) | Work::UnsignedRange(id) => {
                self.field(id as u64)
            }
            Work::Narrow(_) | Work::One | Work::Masked(..) | Work::Above(..) | Work::Cut(..) => {
                self.nested()
            }
            Work::IsBelow(id, limit) => binary(native::ScalarType::Bool, 32, id, limit),
            Work::Guard(condition) => Call::AssumeGuard {
                condition: condition as u64,
                expected: 1,
            },
        }
    }

    // An effect of a type, or an input to divide by.
    fn leaf(self) -> Call {
        let effect = |number, ty: native::ScalarType| Call::Effect {
            number: number as u64,
            ty: ty.into(),
        };
        match self {
            Work::Leaf(number) => effect(number, native::ScalarType::Bits(16)),
            Work::Wide(number) => effect(number, native::ScalarType::Bits(64)),
            Work::Divisor(number) => Call::Input {
                number: number as u64,
                ty: native::ScalarType::Integer.into(),
                range: Some(native::Range {
                    min: 1,
                    max: DIVISOR,
                }),
            },
            Work::Effect(number) => effect(number, native::ScalarType::Integer),
            _ => unreachable!("no leaf"),
        }
    }

    // A part of the slow calls.
    fn nested(self) -> Call {
        let two = native::ScalarType::Bits(2);
        match self {
            Work::Narrow(number) => Call::Input {
                number: number as u64,
                ty: two.into(),
                range: None,
            },
            Work::One => Call::Constant {
                ty: two.into(),
                value: 1,
            },
            Work::Masked(id, mask) => binary(two, 23, id, mask),
            Work::Above(high, low, width) => Call::Concat {
                high: high as u64,
                low: low as u64,
                low_width: width.into(),
                width: u64::from(width) + 2,
            },
            Work::Cut(id, offset, width) => Call::Slice {
                id: id as u64,
                offset: offset.into(),
                width: width.into(),
            },
            _ => unreachable!("no part of them"),
        }
    }

    fn constant(self) -> Call {
        let value = match self {
            Work::Constant(id) => 1000 + id as u128,
            _ => 200,
        };
        Call::Constant {
            ty: native::ScalarType::Bits(16).into(),
            value,
        }
    }

    // A slice, a concat or a range test, by what it is of.
    fn field(self, id: u64) -> Call {
        match self {
            Work::Slice(_) => Call::Slice {
                id,
                offset: 4,
                width: 8,
            },
            Work::Concat(_) => Call::Concat {
                high: id,
                low: id + 1,
                low_width: 16,
                width: 32,
            },
            Work::WideConcat(_) => Call::Concat {
                high: id,
                low: id + 1,
                low_width: 64,
                width: 128,
            },
            _ => Call::UnsignedRange {
                id,
                low: 3,
                high: 200,
            },
        }
    }
}

fn unary(ty: native::ScalarType, op: u64, parameter: u64, id: usize) -> Call {
    Call::Unary {
        ty: ty.into(),
        op,
        parameter,
        id: id as u64,
    }
}

fn binary(ty: native::ScalarType, op: u64, left: usize, right: usize) -> Call {
    Call::Binary {
        ty: ty.into(),
        op,
        left: left as u64,
        right: right as u64,
    }
}

// The two tiers of the library.
pub struct Tiers<'a> {
    pub asking: &'a mut dyn Side,
    pub twin: &'a mut dyn Side,
}

pub fn smallest(mut measure: impl FnMut() -> f64) -> f64 {
    (0..TIMES).map(|_| measure()).fold(f64::MAX, f64::min)
}

// Nanoseconds for each of the calls that `run` makes.
pub fn timed(calls: usize, run: impl FnOnce()) -> f64 {
    let start = Instant::now();
    run();
    start.elapsed().as_nanos() as f64 / calls as f64
}

fn work(graph: &mut Graph, works: &[Work]) {
    for work in works {
        black_box(black_box(*work).on(graph));
    }
}

fn put(region: &mut [u64], calls: &[Ready]) {
    for call in calls {
        // SAFETY: calls of the original and of the library made the region a graph.
        black_box(unsafe { black_box(*call).make(region) });
    }
}

// The calls with their words at hand.
pub fn ready(side: &dyn Side, works: &[Work]) -> Vec<Ready> {
    works
        .iter()
        .map(|work| {
            side.ready(&work.call())
                .expect("the library makes this call")
        })
        .collect()
}

// On a graph, the calls one after another.
pub fn old_times(tiers: &mut Tiers, before: &[Work], works: &[Work]) -> [f64; 3] {
    let (mut graph, mut region) = after(before);
    let original = smallest(|| timed(works.len(), || work(&mut graph, works)));
    let [twin, asking] = [&tiers.twin, &tiers.asking].map(|side| {
        let calls = ready(*side, works);
        smallest(|| timed(calls.len(), || put(&mut region, &calls)))
    });
    [original, twin, asking]
}

// On copies of a graph, the calls one after another.
pub fn new_times(tiers: &mut Tiers, before: &[Work], works: &[Work]) -> [f64; 3] {
    let (graph, region) = after(before);
    let all = COPIES * works.len();
    let original = smallest(|| {
        let mut graphs = vec![graph.clone(); COPIES];
        graphs
            .iter_mut()
            .for_each(|graph| graph.scalars.reserve(NEW));
        timed(all, || {
            graphs.iter_mut().for_each(|graph| work(graph, works))
        })
    });
    let [twin, asking] = [&tiers.twin, &tiers.asking].map(|side| {
        let calls = ready(*side, works);
        smallest(|| {
            let mut regions = vec![region.clone(); COPIES];
            timed(all, || {
                for region in &mut regions {
                    put(region, &calls);
                }
            })
        })
    });
    [original, twin, asking]
}

// As `work` and `put`, and called in one place: what is counted are the calls made there.
#[inline(never)]
pub fn counted_work(graph: &mut Graph, works: &[Work]) {
    work(graph, works);
}

#[inline(never)]
pub fn counted_put(region: &mut [u64], calls: &[Ready]) {
    put(region, calls);
}

// The graph and the region that calls lead to.
pub fn after(works: &[Work]) -> (Graph, Vec<u64>) {
    let mut graph = Graph::default();
    work(&mut graph, works);
    let mut same = native::Graph::default();
    for work in works {
        apply(&mut same, &work.call());
    }
    let mut region = vec![0; REGION];
    encode(&same, &mut region);
    (graph, region)
}

fn is_graph(side: &mut dyn Side, region: &mut [u64]) -> f64 {
    smallest(|| {
        timed(CALLS, || {
            for _ in 0..CALLS {
                black_box(side.call(region, &black_box(Call::IsGraph)));
            }
        })
    })
}

fn print_leaves(tiers: &mut Tiers) {
    println!("| nodes | node | original | in graph | asking | question 1 |");
    println!("|---|---|---|---|---|---|");
    for nodes in NODES {
        let before: Vec<Work> = (0..nodes).map(Work::Effect).collect();
        let question = is_graph(tiers.asking, &mut after(&before).1);
        // Old nodes, spread over all of them.
        let works: Vec<Work> = (0..CALLS)
            .map(|turn| Work::Effect(turn * 7919 % nodes))
            .collect();
        let [original, twin, asking] = old_times(tiers, &before, &works);
        println!("| {nodes} | old | {original:.0} | {twin:.0} | {asking:.0} | {question:.0} |");
        if 512 < nodes + NEW {
            continue;
        }
        let works: Vec<Work> = (nodes..nodes + NEW).map(Work::Effect).collect();
        let [original, twin, asking] = new_times(tiers, &before, &works);
        println!("| {nodes} | new | {original:.0} | {twin:.0} | {asking:.0} | {question:.0} |");
    }
}

fn print_builders(tiers: &mut Tiers) {
    println!("| builder | nodes | node | original | in graph | asking |");
    println!("|---|---|---|---|---|---|");
    for (name, leaf, builder) in BUILDERS {
        for nodes in BUILDER_NODES {
            let (leaves, full) = graphs(leaf, builder, nodes);
            let works: Vec<Work> = (0..CALLS).map(|turn| builder(turn % 3)).collect();
            let [original, twin, asking] = old_times(tiers, &full, &works);
            println!("| {name} | {nodes} | old | {original:.0} | {twin:.0} | {asking:.0} |");
            let [original, twin, asking] = new_times(tiers, &leaves, &works[..3]);
            println!("| {name} | {nodes} | new | {original:.0} | {twin:.0} | {asking:.0} |");
        }
    }
}

// So many leaves, and a graph of as many nodes whose last are those of three calls on the first leaves.
fn graphs(
    leaf: fn(usize) -> Work,
    builder: fn(usize) -> Work,
    nodes: usize,
) -> (Vec<Work>, Vec<Work>) {
    let new: Vec<Work> = (0..3).map(builder).collect();
    let leaves: Vec<Work> = (0..nodes).map(leaf).collect();
    let few = [&leaves[..8], &new[..]].concat();
    let added = after(&few).0.scalars.len() - 8;
    let full = [&leaves[..nodes - added], &new[..]].concat();
    (leaves, full)
}

// The calls before three calls of one kind, and these: a builder's, guards (new: each narrows a node), or the slowest slices.
fn three(name: &str, nodes: usize, is_old: bool) -> Option<(Vec<Work>, Vec<Work>)> {
    match name {
        "guard" => {
            let (before, guards) = guarded(nodes);
            let known = [&before[..], &guards[..]].concat();
            Some((if is_old { known } else { before }, guards))
        }
        "slices of concats" => {
            let before = nested();
            let last = before.len() - 1;
            let cuts = SLOW.map(|(offset, width)| Work::Cut(last, offset, width));
            Some((before, cuts.to_vec()))
        }
        _ => {
            let (_, leaf, builder) = BUILDERS.iter().find(|(known, _, _)| *known == name)?;
            let (leaves, full) = graphs(*leaf, *builder, nodes);
            Some((
                if is_old { full } else { leaves },
                (0..3).map(*builder).collect(),
            ))
        }
    }
}

// Three calls on one side, on an old or a new node: a count of the instructions of `counted_work` or `counted_put` is theirs.
pub fn one(twin: &mut dyn Side, name: &str, nodes: usize, is_old: bool, is_original: bool) -> bool {
    match name {
        "retain" => {
            three_retains(twin, nodes, is_original);
            return true;
        }
        "eight guards" | "list of eight guards" => {
            list_times::one(twin, name != "eight guards", nodes, is_old, is_original);
            return true;
        }
        _ => {}
    }
    let Some((before, works)) = three(name, nodes, is_old) else {
        return false;
    };
    let (mut graph, mut region) = after(&before);
    if is_original {
        counted_work(&mut graph, &works);
    } else {
        counted_put(&mut region, &ready(twin, &works));
    }
    true
}

// Leaves and sums of two, and which of them a retain keeps: every other sum is dropped.
fn sums(nodes: usize) -> (Graph, Vec<u64>, Vec<u8>) {
    let leaves = (0..nodes / 2).map(Work::Leaf);
    let before: Vec<Work> = leaves
        .chain((0..nodes / 2 - 1).map(|id| Work::Binary(Pair::Add, id)))
        .collect();
    let (graph, region) = after(&before);
    let keep = (0..graph.scalars.len())
        .map(|id| (id < nodes / 2 || id % 2 == 0).into())
        .collect();
    (graph, region, keep)
}

#[inline(never)]
fn counted_work_retain(graphs: &mut [Graph], keep: &[bool]) {
    for graph in graphs {
        black_box(graph.retain(black_box(keep)));
    }
}

#[inline(never)]
fn counted_put_retain(
    side: &mut dyn Side,
    regions: &mut [Vec<u64>],
    marks: &mut [u64],
    keep: &[u8],
    mapping: &mut [u64],
) {
    for region in regions {
        black_box(side.retain(region, marks, black_box(keep), mapping));
    }
}

fn three_retains(twin: &mut dyn Side, nodes: usize, is_original: bool) {
    let (graph, region, keep) = sums(nodes);
    let kept: Vec<bool> = keep.iter().map(|element| *element == 1).collect();
    if is_original {
        let mut graphs = vec![graph; 3];
        counted_work_retain(&mut graphs, &kept);
    } else {
        let (mut marks, mut mapping) = (vec![0; MARKS], vec![0; keep.len()]);
        let mut regions = vec![region; 3];
        counted_put_retain(twin, &mut regions, &mut marks, &keep, &mut mapping);
    }
}

// A retain on copies of a graph of leaves and sums of two, of which every other sum is dropped.
fn retain_times(tiers: &mut Tiers, nodes: usize) -> [f64; 3] {
    let (graph, region, keep) = sums(nodes);
    let count = keep.len();
    let kept: Vec<bool> = keep.iter().map(|element| *element == 1).collect();
    let original = smallest(|| {
        let mut graphs = vec![graph.clone(); COPIES];
        timed(COPIES, || {
            for graph in &mut graphs {
                black_box(graph.retain(black_box(&kept)));
            }
        })
    });
    let [twin, asking] = [&mut tiers.twin, &mut tiers.asking].map(|side| {
        smallest(|| {
            let mut regions = vec![region.clone(); COPIES];
            let (mut marks, mut mapping) = (vec![0; MARKS], vec![0; count]);
            timed(COPIES, || {
                for region in &mut regions {
                    black_box(side.retain(region, &mut marks, black_box(&keep), &mut mapping));
                }
            })
        })
    });
    [original, twin, asking]
}

fn print_retains(tiers: &mut Tiers) {
    println!("| retain, nodes | original | in graph | asking |");
    println!("|---|---|---|---|");
    for nodes in BUILDER_NODES {
        let [original, twin, asking] = retain_times(tiers, nodes);
        println!("| {nodes} | {original:.0} | {twin:.0} | {asking:.0} |");
    }
}

// A graph of so many nodes whose last are comparisons of leaves with a constant, and guards on these.
fn guarded(nodes: usize) -> (Vec<Work>, Vec<Work>) {
    let limit = nodes - 4;
    let mut before: Vec<Work> = (0..limit).map(Work::Leaf).collect();
    before.push(Work::Limit);
    before.extend((0..3).map(|id| Work::IsBelow(id, limit)));
    (before, (limit + 1..nodes).map(Work::Guard).collect())
}

// Guards on comparisons of leaves with a constant, each of which narrows one leaf by a new node, and the same guards
// again, which narrow nothing.
fn print_guards(tiers: &mut Tiers) {
    println!("| guard, nodes | narrows | original | in graph | asking |");
    println!("|---|---|---|---|---|");
    for nodes in BUILDER_NODES {
        let (before, guards) = guarded(nodes);
        let [original, twin, asking] = new_times(tiers, &before, &guards);
        println!("| {nodes} | one node | {original:.0} | {twin:.0} | {asking:.0} |");
        let known = [&before[..], &guards[..]].concat();
        let works: Vec<Work> = (0..CALLS).map(|turn| guards[turn % 3]).collect();
        let [original, twin, asking] = old_times(tiers, &known, &works);
        println!("| {nodes} | nothing | {original:.0} | {twin:.0} | {asking:.0} |");
    }
}

// The levels of the concats that the slow calls cut.
const LEVELS: usize = 62;
// The offsets and widths of the slow slices.
const SLOW: [(u16, u16); 3] = [(0, 125), (1, 125), (63, 63)];

// Inputs of two bits, each behind a mask of one, in a concat of concats.
fn nested() -> Vec<Work> {
    let mut works = vec![Work::One, Work::Narrow(0), Work::Masked(1, 0)];
    let mut low = 2;
    for level in 1..=LEVELS {
        let input = works.len();
        works.extend([Work::Narrow(level), Work::Masked(input, 0)]);
        works.push(Work::Above(input + 1, low, 2 * level as u16));
        low = input + 2;
    }
    works
}

// Slices of many concats, each of which is cut and joined anew: the slowest calls found.
fn print_slow(tiers: &mut Tiers) {
    println!("| slice of {LEVELS} concats | original | in graph | asking |");
    println!("|---|---|---|---|");
    let before = nested();
    let last = before.len() - 1;
    for (offset, width) in SLOW {
        let [original, twin, asking] = new_times(tiers, &before, &[Work::Cut(last, offset, width)]);
        println!("| {width} bits from {offset} | {original:.0} | {twin:.0} | {asking:.0} |");
    }
}

#[cfg(library)]
pub fn bound_work(graph: &mut scalars::Graph, works: &[Work]) {
    for work in works {
        black_box(black_box(*work).bound(graph));
    }
}

// Each builder through the binding beside the exported call, on 16 nodes.
#[cfg(library)]
fn print_binding(tiers: &mut Tiers) {
    println!("| builder, through the binding | node | exported call | binding |");
    println!("|---|---|---|---|");
    for (name, leaf, builder) in BUILDERS {
        let (leaves, full) = graphs(leaf, builder, BUILDER_NODES[0]);
        let works: Vec<Work> = (0..CALLS).map(|turn| builder(turn % 3)).collect();
        let [_, exported, _] = old_times(tiers, &full, &works);
        let mut graph = scalars::Graph::default();
        bound_work(&mut graph, &full);
        let bound = smallest(|| timed(works.len(), || bound_work(&mut graph, &works)));
        println!("| {name} | old | {exported:.0} | {bound:.0} |");
        let [_, exported, _] = new_times(tiers, &leaves, &works[..3]);
        let mut before = scalars::Graph::default();
        bound_work(&mut before, &leaves);
        let bound = smallest(|| {
            let mut graphs = vec![before.clone(); COPIES];
            timed(COPIES * 3, || {
                graphs
                    .iter_mut()
                    .for_each(|graph| bound_work(graph, &works[..3]))
            })
        });
        println!("| {name} | new | {exported:.0} | {bound:.0} |");
    }
}

pub fn print(asking: &mut dyn Side, twin: &mut dyn Side) {
    let mut tiers = Tiers { asking, twin };
    println!(
        "Nanoseconds for a call. `asking` asks question 1 first, which alone takes `question 1`;"
    );
    println!(
        "`in graph` is its twin that does not ask. First `effect`, then each builder, retain, marks, guards and lists of them.\n"
    );
    print_leaves(&mut tiers);
    println!();
    print_builders(&mut tiers);
    println!();
    print_retains(&mut tiers);
    println!();
    mark_times::print(&mut tiers);
    println!();
    print_guards(&mut tiers);
    println!();
    list_times::print(&mut tiers);
    println!();
    print_slow(&mut tiers);
    #[cfg(library)]
    {
        println!();
        print_binding(&mut tiers);
        println!();
        mark_times::print_bound();
    }
}

// How long a list of eight guards takes beside eight single guards, by the number of nodes. `one` makes either of them alone, for a
// count of their instructions.
use crate::call::{ListFunction, Side};
use crate::times::{
    BUILDER_NODES, CALLS, COPIES, Tiers, Work, after, counted_put, counted_work, new_times,
    old_times, ready, smallest, timed,
};
use std::hint::black_box;

const EIGHT: usize = 8;

// Guards by their conditions, each of which is expected to be true.
type Conditions = [u64; EIGHT];

// A graph of so many nodes whose last are eight comparisons, and these: six leaves are below a constant, and two of them below a
// smaller one. In this order each narrows one node by a new one.
fn compared(nodes: usize) -> (Vec<Work>, Conditions) {
    let large = nodes - EIGHT - 2;
    let mut before: Vec<Work> = (0..large).map(Work::Leaf).collect();
    before.extend([Work::Constant(0), Work::Limit]);
    before.extend((0..6).map(|id| Work::IsBelow(id, large)));
    before.extend((0..2).map(|id| Work::IsBelow(id, large + 1)));
    let first = nodes - EIGHT;
    (before, std::array::from_fn(|place| (first + place) as u64))
}

fn guards(conditions: Conditions) -> [Work; EIGHT] {
    conditions.map(|condition| Work::Guard(condition as usize))
}

// The graph before the guards, or after them, when they narrow nothing.
fn graph(nodes: usize, is_known: bool) -> (Vec<Work>, Conditions) {
    let (mut before, conditions) = compared(nodes);
    let has_nodes = |before: &[Work], nodes| after(before).0.scalars.len() == nodes;
    assert!(has_nodes(&before, nodes), "no call found an old node");
    if is_known {
        before.extend(guards(conditions));
        assert!(has_nodes(&before, nodes + EIGHT), "each narrows one node");
    }
    (before, conditions)
}

fn put_list(function: ListFunction, region: &mut [u64], conditions: &Conditions) {
    let (g, len) = (region.as_mut_ptr(), region.len());
    let (conditions, answers) = (black_box(conditions), black_box([1; EIGHT]));
    let [list, answers] = [conditions.as_ptr(), answers.as_ptr()];
    // SAFETY: calls of the original and of the library made the region a graph, and all slices are passed whole.
    black_box(unsafe { function(g, len, list, EIGHT, answers, EIGHT) });
}

// Lists on copies of a graph, or one after another on the graph itself.
fn list_time(side: &dyn Side, region: &[u64], conditions: &Conditions, is_known: bool) -> f64 {
    let function = side.list_function().expect("the library has lists");
    let (copies, lists) = if is_known {
        (1, CALLS / EIGHT)
    } else {
        (COPIES, 1)
    };
    smallest(|| {
        let mut regions = vec![region.to_vec(); copies];
        timed(copies * lists, || {
            for region in &mut regions {
                (0..lists).for_each(|_| put_list(function, region, conditions));
            }
        })
    })
}

// The eight guards of the original, and for each tier eight guards and the list.
fn times(tiers: &mut Tiers, nodes: usize, is_known: bool) -> [f64; 5] {
    let (before, conditions) = graph(nodes, is_known);
    let works = guards(conditions);
    let singles = if is_known {
        old_times(tiers, &before, &works.repeat(CALLS / EIGHT))
    } else {
        new_times(tiers, &before, &works)
    };
    let [original, twin, asking] = singles.map(|time| time * EIGHT as f64);
    let region = after(&before).1;
    let [twin_list, asking_list] =
        [&tiers.twin, &tiers.asking].map(|side| list_time(*side, &region, &conditions, is_known));
    [original, twin, twin_list, asking, asking_list]
}

pub fn print(tiers: &mut Tiers) {
    println!(
        "| eight guards, nodes | each narrows | original | eight in graph | list in graph | eight asking | list asking |"
    );
    println!("|---|---|---|---|---|---|---|");
    for nodes in BUILDER_NODES {
        for (is_known, narrows) in [(false, "one node"), (true, "nothing")] {
            let times = times(tiers, nodes, is_known).map(|time| format!("{time:.0}"));
            println!("| {nodes} | {narrows} | {} |", times.join(" | "));
        }
    }
}

#[inline(never)]
fn counted_put_list(function: ListFunction, region: &mut [u64], conditions: &Conditions) {
    put_list(function, region, conditions);
}

// Three times eight guards, or three lists of them, on one side, each on a copy of a graph that they narrow or that knows them.
pub fn one(twin: &mut dyn Side, is_list: bool, nodes: usize, is_known: bool, is_original: bool) {
    let (before, conditions) = graph(nodes, is_known);
    let works = guards(conditions);
    let calls = ready(twin, &works);
    let function = twin.list_function().expect("the library has lists");
    for _ in 0..3 {
        let (mut graph, mut region) = after(&before);
        if is_original {
            counted_work(&mut graph, &works);
        } else if is_list {
            counted_put_list(function, &mut region, &conditions);
        } else {
            counted_put(&mut region, &calls);
        }
    }
}

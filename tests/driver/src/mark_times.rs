// How long a mark and a return to it take on each side, by the number of nodes, with an arm of a branch between them.
use crate::call::Marking;
use crate::marks::MARKS;
#[cfg(library)]
use crate::times::bound_work;
use crate::times::{BUILDER_NODES, CALLS, COPIES, Pair, Tiers, Work, after, smallest, timed};
use std::hint::black_box;

// The nodes of an arm of a branch, beside the one of its guard.
const ARM: usize = 8;
// The marks that can be set beside the one that stands.
#[cfg(library)]
const MORE: usize = 15;

// A graph with a condition at its end, and an arm of a branch on it: a guard, and new nodes.
fn branch(nodes: usize) -> [Vec<Work>; 2] {
    let limit = nodes - 2;
    let mut before: Vec<Work> = (0..limit).map(Work::Leaf).collect();
    before.extend([Work::Limit, Work::IsBelow(0, limit)]);
    let mut arm = before.clone();
    arm.push(Work::Guard(limit + 1));
    arm.extend((0..ARM).map(|id| Work::Binary(Pair::Add, id)));
    [before, arm]
}

// A mark. The original's is a clone.
fn mark_times(tiers: &mut Tiers, before: &[Work]) -> [f64; 3] {
    let (graph, mut region) = after(before);
    let original = smallest(|| {
        let mut clones = Vec::with_capacity(COPIES);
        timed(COPIES, || {
            for _ in 0..COPIES {
                clones.push(black_box(&graph).clone());
            }
        })
    });
    let [twin, asking] = [&mut tiers.twin, &mut tiers.asking].map(|side| {
        let mut marks = vec![0; MARKS];
        smallest(|| {
            timed(CALLS, || {
                for _ in 0..CALLS {
                    marks[0] = 0;
                    black_box(side.marking(&mut region, &mut marks, black_box(Marking::Mark)));
                }
            })
        })
    });
    [original, twin, asking]
}

// A return to the mark after the arm. The original's is an assignment of a clone, since the mark stays.
fn return_times(tiers: &mut Tiers, before: &[Work], arm: &[Work]) -> [f64; 3] {
    let (saved, mut region) = after(before);
    let mut marks = vec![0; MARKS];
    tiers.asking.marking(&mut region, &mut marks, Marking::Mark);
    let (graph, region) = after(arm);
    let original = smallest(|| {
        let mut graphs = vec![graph.clone(); COPIES];
        timed(COPIES, || {
            for graph in &mut graphs {
                *graph = black_box(&saved).clone();
            }
        })
    });
    let [twin, asking] = [&mut tiers.twin, &mut tiers.asking].map(|side| {
        smallest(|| {
            let mut regions = vec![region.clone(); COPIES];
            timed(COPIES, || {
                for region in &mut regions {
                    let call = black_box(Marking::ReturnTo(0));
                    black_box(side.marking(region, &mut marks, call));
                }
            })
        })
    });
    [original, twin, asking]
}

pub fn print(tiers: &mut Tiers) {
    println!("| marks, nodes | call | original | in graph | asking |");
    println!("|---|---|---|---|---|");
    for nodes in BUILDER_NODES {
        let [before, arm] = branch(nodes);
        let [original, twin, asking] = mark_times(tiers, &before);
        println!("| {nodes} | mark | {original:.0} | {twin:.0} | {asking:.0} |");
        let [original, twin, asking] = return_times(tiers, &before, &arm);
        println!("| {nodes} | return | {original:.0} | {twin:.0} | {asking:.0} |");
    }
}

// Marks and returns through the binding.
#[cfg(library)]
pub fn print_bound() {
    println!("| marks, nodes | mark through the binding | return |");
    println!("|---|---|---|");
    for nodes in BUILDER_NODES {
        let [before, arm] = branch(nodes);
        let mut marked = scalars::Graph::default();
        bound_work(&mut marked, &before);
        marked.mark();
        let mark = smallest(|| {
            let mut graphs = vec![marked.clone(); COPIES];
            timed(COPIES * MORE, || {
                for graph in &mut graphs {
                    for _ in 0..MORE {
                        black_box(graph.mark());
                    }
                }
            })
        });
        bound_work(&mut marked, &arm[before.len()..]);
        let back = smallest(|| {
            let mut graphs = vec![marked.clone(); COPIES];
            timed(COPIES, || {
                graphs.iter_mut().for_each(|graph| graph.return_to(0));
            })
        });
        println!("| {nodes} | {mark:.0} | {back:.0} |");
    }
}

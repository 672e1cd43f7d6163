// The original's linear.rs, unchanged, compiled against the Rust binding in place of native.rs: on random graphs it gives
// what it gives on the original's graph. A call that the binding refuses is left out on both sides.
// usage: linear [GRAPHS [SEED]]
mod generate;
#[path = "../../original/splitmix.rs"]
mod splitmix;

// The original.
#[allow(dead_code)]
mod plain {
    include!(concat!(env!("OUT_DIR"), "/plain.rs"));
}

// The binding, with the original's module beside its names.
#[allow(dead_code)]
mod native {
    pub use scalars::*;

    pub mod linear {
        include!(concat!(env!("OUT_DIR"), "/linear.rs"));
    }
}

use generate::Pair;
use splitmix::Random;
use std::env;
use std::process::ExitCode;

const GRAPHS: u64 = 100_000;
const SEED: u64 = 0x5ca1_ab1e_0017_0001;

// What was compared.
#[derive(Default)]
struct Counts {
    nodes: u64,
    calls: u64,
    refused: u64,
    instructions: u64,
    guards: u64,
    matches: u64,
}

// The guard on a condition on both sides, and what it says of some values.
fn compare_guard(pair: &mut Pair, condition: usize, counts: &mut Counts) -> Result<(), String> {
    for expected in [false, true] {
        let right = plain::linear::guard(&pair.original, condition, expected);
        let found = native::linear::guard(&pair.bound, condition, expected);
        let own = scalars::guard(&pair.bound, condition, expected);
        let texts = (
            format!("{right:?}"),
            format!("{found:?}"),
            format!("{own:?}"),
        );
        if texts.0 != texts.1 || texts.0 != texts.2 {
            return Err(format!("guard {condition} {expected}: {texts:?}"));
        }
        let (Some(right), Some(found), Some(own)) = (right, found, own) else {
            continue;
        };
        counts.guards += 1;
        for _ in 0..4 {
            let (left, value) = (pair.value(), pair.value());
            let is = right.matches(left, value);
            if is != found.matches(left, value) || is != own.matches(left, value) {
                return Err(format!("{right:?} matches {left} {value}: {is}"));
            }
            counts.matches += 1;
        }
    }
    Ok(())
}

// Every instruction, before and after its slots are taken.
fn compare_lowered(pair: &Pair, counts: &mut Counts) -> Result<(), String> {
    let (right, found) = (
        plain::linear::slots(&pair.original),
        native::linear::slots(&pair.bound),
    );
    if right != found {
        return Err(format!("slots: {right:?} and {found:?}"));
    }
    for id in 0..pair.bound.scalars.len() {
        let mut right = plain::linear::lower(&pair.original, id);
        let mut found = native::linear::lower(&pair.bound, id);
        let before = (format!("{right:?}"), format!("{found:?}"));
        right
            .iter_mut()
            .for_each(|one| one.remap(&found_slots(pair)));
        found
            .iter_mut()
            .for_each(|one| one.remap(&found_slots(pair)));
        let after = (format!("{right:?}"), format!("{found:?}"));
        if before.0 != before.1 || after.0 != after.1 {
            return Err(format!("node {id}: {before:?}, {after:?}"));
        }
        counts.instructions += 1;
    }
    Ok(())
}

fn found_slots(pair: &Pair) -> Vec<usize> {
    native::linear::slots(&pair.bound).0
}

fn compare(pair: &mut Pair, counts: &mut Counts) -> Result<(), String> {
    compare_lowered(pair, counts)?;
    for id in 0..pair.bound.scalars.len() {
        if pair.bound.scalars[id].ty == scalars::ScalarType::Bool {
            compare_guard(pair, id, counts)?;
        }
    }
    counts.nodes += pair.bound.scalars.len() as u64;
    counts.calls += pair.calls;
    counts.refused += pair.refused;
    Ok(())
}

fn main() -> ExitCode {
    let numbers: Vec<u64> = env::args()
        .skip(1)
        .map(|text| text.parse().expect("a number"))
        .collect();
    let graphs = numbers.first().copied().unwrap_or(GRAPHS);
    let mut random = Random(numbers.get(1).copied().unwrap_or(SEED));
    let mut counts = Counts::default();
    for number in 0..graphs {
        let mut pair = Pair::new(Random(random.next()));
        let compared = pair.grow().and_then(|()| compare(&mut pair, &mut counts));
        if let Err(difference) = compared {
            println!("DIFFERENCE in graph {number}: {difference}\n{}", pair.bound);
            return ExitCode::FAILURE;
        }
    }
    println!(
        "{graphs} graphs of {} nodes, by {} calls and {} more that were refused: {} instructions, {} guards and {} matches, no difference",
        counts.nodes,
        counts.calls,
        counts.refused,
        counts.instructions,
        counts.guards,
        counts.matches
    );
    ExitCode::SUCCESS
}

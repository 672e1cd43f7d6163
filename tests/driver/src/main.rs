// Compares the proved library with the original on random calls: the answers, and every word after every call.
// usage: driver [--program PATH | self | marks | lists] [SEED [ROUNDS]]   or   driver times   or   driver one NAME NODES old|new original|library   or   driver vectors FOLDER
#[cfg(library)]
mod binding;
mod builders;
mod call;
mod chains;
mod choices;
mod classes;
mod compare;
mod edges;
mod examples;
mod generate;
mod guard_examples;
mod guard_list;
mod guard_regions;
mod guards;
#[cfg(library)]
mod library;
mod lines;
mod list_edges;
mod list_rounds;
mod list_times;
mod lists;
mod mark_regions;
mod mark_times;
mod marked;
mod marks;
mod meter;
// The original with its entries, stores and sites told to `meter`.
#[allow(dead_code)]
mod native {
    include!(concat!(env!("OUT_DIR"), "/metered.rs"));
}
mod numbers;
#[path = "../../original/operators.rs"]
mod operators;
mod original;
// The original as it is.
#[allow(dead_code)]
mod plain {
    include!(concat!(env!("OUT_DIR"), "/plain.rs"));
}
mod plans;
mod program;
mod questions;
mod random;
mod regions;
mod report;
mod retains;
// The build reads more of it.
#[allow(dead_code)]
mod sites;
mod sweep;
mod times;
mod vectors;
mod words;

use call::Side;
use classes::{Outcome, Rounds};
use compare::Comparison;
use generate::Source;
use marks::Filled;
use program::Program;
use regions::WORD_KINDS;
use std::env;
use std::process::ExitCode;

const SEED: u64 = 0x5ca1_ab1e_0004_0001;
const ROUNDS: u64 = 20_000;
// With fewer rounds something may not be met.
const WHOLE: u64 = 1_000;

fn library() -> Box<dyn Side> {
    #[cfg(library)]
    return Box::new(library::Library);
    #[cfg(not(library))]
    {
        eprintln!("built without the library: run `./staticlib`, and build again");
        std::process::exit(2);
    }
}

// The library's tier for a region that is known to be a graph, through the binding where it can be.
fn twin() -> Box<dyn Side> {
    #[cfg(library)]
    return Box::new(binding::Binding::new());
    #[cfg(not(library))]
    library()
}

// A number, in hex after 0x.
fn number(text: &str) -> u64 {
    let parsed = match text.strip_prefix("0x") {
        Some(digits) => u64::from_str_radix(digits, 16),
        None => text.parse(),
    };
    parsed.unwrap_or_else(|_| panic!("{text} is no number"))
}

// Rounds of the calls with marks alone.
fn compare_marks((seed, rounds): (u64, u64)) -> ExitCode {
    println!("seed {seed:#x}, {rounds} rounds with marks alone\n");
    let mut all = all_rounds(library(), Some(twin()), true, seed);
    let compared = (0..rounds).try_for_each(|_| all.marks());
    told(&all, compared)
}

// The lists of guards alone: those that do not depend on the seed, and rounds.
fn compare_lists((seed, rounds): (u64, u64)) -> ExitCode {
    println!("seed {seed:#x}, {rounds} rounds with lists of guards alone\n");
    let mut all = all_rounds(library(), Some(twin()), true, seed);
    let compared = all
        .list_edges()
        .and_then(|()| (0..rounds).try_for_each(|_| all.lists()));
    let code = told(&all, compared);
    let missing = report::missing_lists(&all.comparison);
    if code == ExitCode::SUCCESS && rounds >= WHOLE && !missing.is_empty() {
        println!("NEVER MET: {}", missing.join("; "));
        return ExitCode::FAILURE;
    }
    code
}

// The report of what was compared, or the difference.
fn told(all: &Rounds, compared: Outcome) -> ExitCode {
    if let Err(difference) = compared {
        println!("DIFFERENCE\n{}", difference);
        return ExitCode::FAILURE;
    }
    report::print(all);
    #[cfg(library)]
    println!("calls through the Rust binding: {}", binding::made());
    ExitCode::SUCCESS
}

fn all_rounds(
    side: Box<dyn Side>,
    twin: Option<Box<dyn Side>>,
    has_numbers: bool,
    seed: u64,
) -> Rounds {
    Rounds {
        source: Source::new(seed, has_numbers),
        numbers: Source::new(!seed, has_numbers),
        marks: Source::new(seed.rotate_left(32), has_numbers),
        lists: Source::new(seed.rotate_left(16), has_numbers),
        comparison: Comparison::new(side, twin),
        damages: vec![[0; 2]; WORD_KINDS.len()],
    }
}

fn compare(
    side: Box<dyn Side>,
    twin: Option<Box<dyn Side>>,
    has_numbers: bool,
    seed: u64,
    rounds: u64,
) -> ExitCode {
    println!("seed {seed:#x}, {rounds} rounds\n");
    let mut all = all_rounds(side, twin, has_numbers, seed);
    let mut compared = all.fixed();
    for round in 0..rounds {
        compared = compared.and_then(|()| all.round(round));
    }
    if let Err(difference) = compared {
        println!("DIFFERENCE\n{}", difference);
        return ExitCode::FAILURE;
    }
    report::print(&all);
    #[cfg(library)]
    println!("calls through the Rust binding: {}\n", binding::made());
    let missing = report::missing(&all);
    if rounds >= WHOLE && !missing.is_empty() {
        println!("NEVER MET: {}", missing.join("; "));
        return ExitCode::FAILURE;
    }
    ExitCode::SUCCESS
}

// Three calls of one builder on one side, for a count of their instructions.
fn one(name: &str, nodes: &str, node: &str, side: &str) -> ExitCode {
    let nodes = number(nodes) as usize;
    if times::one(
        twin().as_mut(),
        name,
        nodes,
        node == "old",
        side == "original",
    ) {
        ExitCode::SUCCESS
    } else {
        ExitCode::FAILURE
    }
}

fn main() -> ExitCode {
    let args: Vec<String> = env::args().skip(1).collect();
    let args: Vec<&str> = args.iter().map(String::as_str).collect();
    let numbers = |args: &[&str]| {
        let seed = args.first().map_or(SEED, |text| number(text));
        let rounds = args.get(1).map_or(ROUNDS, |text| number(text));
        (seed, rounds)
    };
    let run = |side: Box<dyn Side>, twin: Option<Box<dyn Side>>, has_numbers, args: &[&str]| {
        let (seed, rounds) = numbers(args);
        compare(side, twin, has_numbers, seed, rounds)
    };
    match args.as_slice() {
        ["vectors", folder] => {
            vectors::write(folder);
            ExitCode::SUCCESS
        }
        ["times"] => {
            times::print(library().as_mut(), twin().as_mut());
            ExitCode::SUCCESS
        }
        ["one", name, nodes, node, side] => one(name, nodes, node, side),
        ["marks", rest @ ..] => compare_marks(numbers(rest)),
        ["lists", rest @ ..] => compare_lists(numbers(rest)),
        // The original on a graph filled from the region, against the graph that it has grown.
        ["self", rest @ ..] => run(Box::new(Filled), None, true, rest),
        ["--program", path, rest @ ..] => run(Box::new(Program::new(path)), None, false, rest),
        rest => {
            let code = run(library(), Some(twin()), true, rest);
            if code == ExitCode::SUCCESS {
                println!();
                times::print(library().as_mut(), twin().as_mut());
            }
            code
        }
    }
}

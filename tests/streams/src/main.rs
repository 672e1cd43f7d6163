// Compares the program `scalars` with the original on random streams of records, writes streams, and times both.
mod bad_cases;
mod built;
mod cases;
mod compare;
mod counts;
mod damage;
mod encode;
mod faulty;
mod lines;
mod program;
mod record;
mod reference;
mod stream;
mod times;
mod value_cases;
mod vectors;
mod wrong;

// The original with its units, stores and aliases told to `meter`.
#[allow(dead_code)]
mod native {
    include!(concat!(env!("OUT_DIR"), "/metered.rs"));
}
#[path = "../../original/operators.rs"]
mod operators;

// The driver's calls, its questions put to the original, and its random calls.
#[allow(dead_code)]
#[path = "../../driver/src/builders.rs"]
mod builders;
#[allow(dead_code)]
#[path = "../../driver/src/call.rs"]
mod call;
#[allow(dead_code)]
#[path = "../../driver/src/chains.rs"]
mod chains;
#[allow(dead_code)]
#[path = "../../driver/src/generate.rs"]
mod generate;
#[allow(dead_code)]
#[path = "../../driver/src/guard_list.rs"]
mod guard_list;
#[allow(dead_code)]
#[path = "../../driver/src/guards.rs"]
mod guards;
#[allow(dead_code)]
#[path = "../../driver/src/meter.rs"]
mod meter;
#[allow(dead_code)]
#[path = "../../driver/src/original.rs"]
mod original;
#[allow(dead_code)]
#[path = "../../driver/src/plans.rs"]
mod plans;
#[allow(dead_code)]
#[path = "../../driver/src/random.rs"]
mod random;
#[allow(dead_code)]
#[path = "../../driver/src/sites.rs"]
mod sites;
#[allow(dead_code)]
#[path = "../../driver/src/words.rs"]
mod words;

use damage::{DAMAGES, Damage, damaged};
use program::Named;
use random::Random;
use std::io::{Result, Write, stdout};
use std::process::ExitCode;
use std::{env, path::Path};
use stream::steady;

const USAGE: &str = "usage: streams reference
       streams generate KIND SEED RECORDS    KIND: correct, or a damage
       streams compare PROGRAM [SEED [STREAMS]]    PROGRAM: a path, or self
       streams faults [SEED [STREAMS]]
       streams vectors FOLDER
       streams times PROGRAM RECORDS ROUNDS";

const FAULT_STREAMS: u64 = 2_000;

// A number, in hex after 0x.
fn number(text: &str) -> u64 {
    let parsed = match text.strip_prefix("0x") {
        Some(digits) => u64::from_str_radix(digits, 16),
        None => text.parse(),
    };
    parsed.unwrap_or_else(|_| panic!("{text} is no number"))
}

// The program at that path, or the reference.
fn named(path: &str) -> Named {
    match path {
        "self" => Named::own(&["reference"]),
        _ => Named {
            path: path.into(),
            args: vec![],
        },
    }
}

fn damage_of(kind: &str) -> Option<Damage> {
    let found = DAMAGES.iter().find(|(_, name)| *name == kind);
    found.map(|(damage, _)| *damage)
}

fn generate(kind: &str, seed: u64, records: usize) -> Result<bool> {
    let stream = steady(seed, records);
    let bytes = match damage_of(kind) {
        Some(damage) => {
            let mut random = Random(!seed);
            let other = steady(random.next(), records);
            damaged(&mut random, damage, &stream, &other)
        }
        None if kind == "correct" => stream.bytes,
        None => return usage(),
    };
    stdout().write_all(&bytes)?;
    Ok(true)
}

fn usage() -> Result<bool> {
    eprintln!("{USAGE}");
    Ok(false)
}

fn passed(result: Result<()>) -> Result<bool> {
    result.map(|()| true)
}

// Does what the arguments say. Is all as it has to be?
fn obey(args: &[&str]) -> Result<bool> {
    let at = |place: usize, default: u64| args.get(place).map_or(default, |text| number(text));
    match args {
        ["reference"] => passed(reference::serve()),
        ["faulty", fault] => passed(faulty::serve(faulty::FAULTS[number(fault) as usize].0)),
        ["generate", kind, seed, records] => generate(kind, number(seed), number(records) as usize),
        ["compare", program, ..] if args.len() <= 4 => compare::compare(
            named(program),
            at(2, compare::SEED),
            at(3, compare::STREAMS),
        ),
        ["faults", ..] if args.len() <= 3 => {
            faulty::compare(at(1, compare::SEED), at(2, FAULT_STREAMS))
        }
        ["vectors", folder] => passed(vectors::write(Path::new(folder))),
        ["times", program, records, rounds] => passed(times::print(
            &named(program),
            number(records) as usize,
            number(rounds) as usize,
        )),
        _ => usage(),
    }
}

fn main() -> ExitCode {
    let args: Vec<String> = env::args().skip(1).collect();
    let args: Vec<&str> = args.iter().map(String::as_str).collect();
    match obey(&args) {
        Ok(true) => ExitCode::SUCCESS,
        Ok(false) => ExitCode::FAILURE,
        Err(error) => {
            eprintln!("{error}");
            ExitCode::FAILURE
        }
    }
}

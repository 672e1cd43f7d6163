// How long a program takes for a long stream, beside the reference.
use crate::program::{Named, scratch_file};
use crate::stream::steady;
use std::fs::File;
use std::io::{Result, Seek, Write};
use std::process::Stdio;
use std::time::{Duration, Instant};

const SEED: u64 = 0x5ca1_ab1e_0006_0002;

// From the program's start to its end.
fn timed(named: &Named, input: &mut File) -> Result<Duration> {
    input.rewind()?;
    let mut command = named.command();
    command.stdin(input.try_clone()?).stdout(Stdio::null());
    let start = Instant::now();
    let status = command.status().map_err(|error| named.error(error))?;
    let time = start.elapsed();
    match status.success() {
        true => Ok(time),
        false => Err(named.error(status)),
    }
}

fn milliseconds(time: Duration) -> f64 {
    time.as_secs_f64() * 1e3
}

// The smallest and the median, in milliseconds.
fn summed(mut times: Vec<Duration>) -> [f64; 2] {
    times.sort();
    [times[0], times[times.len() / 2]].map(milliseconds)
}

pub fn print(named: &Named, records: usize, rounds: usize) -> Result<()> {
    let stream = steady(SEED, records);
    let mut input = scratch_file()?;
    input.write_all(&stream.bytes)?;
    let reference = Named::own(&["reference"]);
    let (mut ours, mut theirs) = (vec![], vec![]);
    for _ in 0..rounds.max(1) {
        ours.push(timed(named, &mut input)?);
        theirs.push(timed(&reference, &mut input)?);
    }
    let [ours, theirs] = [summed(ours), summed(theirs)];
    println!(
        "{} records, {} bytes, {rounds} rounds",
        stream.starts.len(),
        stream.bytes.len()
    );
    println!(
        "{:12}{:>14}{:>14}{:>8}",
        "ms", "program", "reference", "ratio"
    );
    for (place, name) in ["smallest", "median"].into_iter().enumerate() {
        let (a, b) = (ours[place], theirs[place]);
        println!("{name:12}{a:>14.2}{b:>14.2}{:>8.2}", a / b);
    }
    Ok(())
}

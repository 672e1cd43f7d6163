// Writes the streams for the program that replays them under the gate, and what it has to write.
use crate::built::Case;
use crate::cases::cases;
use crate::compare::drawn;
use crate::reference::run;
use std::fs;
use std::io::Result;
use std::path::Path;

const SEED: u64 = 0x5ca1_ab1e_0006_0003;
const RANDOM: usize = 150;

// What the program has room for, and what is left of that for a random stream.
const MOST_INPUT: usize = 16_000;
const MOST_OUTPUT: usize = 8_000;
const MOST_BYTES: usize = 300_000;
const MOST_RANDOM: usize = 2_500;

fn output_of(stream: &[u8]) -> Result<(Vec<u8>, bool)> {
    let mut output = vec![];
    let bad = run(stream, &mut output, |_| ())?;
    Ok((output, bad.is_some()))
}

// A fixed stream ends as its case says, and every one fits.
fn checked_output(case: &Case) -> Result<Vec<u8>> {
    let (output, is_bad) = output_of(&case.bytes)?;
    assert_eq!(is_bad, case.is_bad, "{}", case.name);
    assert!(case.bytes.len() < MOST_INPUT, "{}", case.name);
    assert!(output.len() < MOST_OUTPUT, "{}", case.name);
    Ok(output)
}

// Random streams that are not too long, correct and damaged by turns.
fn random_cases() -> Result<Vec<Case>> {
    let mut cases = vec![];
    let mut number = 0;
    while cases.len() < RANDOM {
        let drawn = drawn(SEED, number);
        let name = format!("stream {number} of {SEED:#x}: {}", drawn.kind);
        number += 1;
        if drawn.bytes.len() < MOST_RANDOM {
            let (_, is_bad) = output_of(&drawn.bytes)?;
            cases.push(Case {
                name,
                bytes: drawn.bytes,
                is_bad,
            });
        }
    }
    Ok(cases)
}

// The files `stdin` and `stdout` of the folder: each stream after its length in four bytes, and the lines of each
// stream before an empty one.
pub fn write(folder: &Path) -> Result<()> {
    let mut cases = cases();
    let fixed = cases.len();
    cases.extend(random_cases()?);
    let (mut input, mut output) = (vec![], vec![]);
    for case in &cases {
        let length = case.bytes.len() as u32;
        input.extend(length.to_le_bytes());
        input.extend(&case.bytes);
        output.extend(checked_output(case)?);
        output.push(b'\n');
    }
    assert!(input.len() < MOST_BYTES, "{} bytes of input", input.len());
    fs::create_dir_all(folder)?;
    fs::write(folder.join("stdin"), &input)?;
    fs::write(folder.join("stdout"), &output)?;
    let bad = cases.iter().filter(|case| case.is_bad).count();
    println!(
        "{} streams, {fixed} of them fixed and {bad} with a bad record; {} bytes in, {} bytes out",
        cases.len(),
        input.len(),
        output.len()
    );
    Ok(())
}

// Compares a program with the reference, stream by stream, in every byte that it writes.
use crate::counts::Counts;
use crate::damage::{DAMAGES, Damage, damaged};
use crate::program::{MODES, Mode, Named, Program, Ran};
use crate::random::Random;
use crate::reference;
use crate::stream::{Shape, any_shape, shaped};
use std::process::ExitStatus;
use std::{env, fs, io};

pub const SEED: u64 = 0x5ca1_ab1e_0006_0001;
pub const STREAMS: u64 = 100_000;
// With fewer streams something may not be met.
pub const WHOLE: u64 = 50_000;

// After so many streams it is said how far the comparison is.
const STRIDE: u64 = 10_000;

// One correct and one damaged stream of so many are huge: those at these places.
const HUGE_EVERY: u64 = 2_000;
const HUGE_AT: [u64; 2] = [200, 201];
// Of so many streams one is also run with its output read slowly. Huge ones are in any case.
const SLOW_EVERY: usize = 8;
// A program may write so many bytes more than it should, before it is stopped.
const TOO_MANY: usize = 1 << 12;

// A stream to be compared.
pub struct Drawn {
    pub kind: &'static str,
    pub bytes: Vec<u8>,
    // The records of the stream as it was before any damage; none if all its bytes are random.
    pub records: usize,
    modes: Vec<Mode>,
}

pub struct Difference {
    pub number: u64,
    pub kind: &'static str,
    pub mode: &'static str,
    stream: Vec<u8>,
    expected: Vec<u8>,
    found: Vec<u8>,
    status: ExitStatus,
}

// How a stream is put to the program.
fn any_modes(random: &mut Random, is_huge: bool) -> Vec<Mode> {
    let mut modes = vec![random.pick(&[Mode::File, Mode::Pipe]), Mode::Trickle];
    if random.once_in(SLOW_EVERY) || is_huge {
        modes.push(Mode::SlowOutput);
    }
    modes
}

// The stream of that number: an even one is correct, an odd one damaged.
pub fn drawn(seed: u64, number: u64) -> Drawn {
    let mut random = Random(seed ^ number.rotate_left(32));
    let is_huge = HUGE_AT.contains(&(number % HUGE_EVERY));
    let modes = any_modes(&mut random, is_huge);
    let shape = match is_huge {
        true => Shape::Huge,
        false => any_shape(&mut random),
    };
    let stream = shaped(random.next(), shape);
    let records = stream.starts.len();
    if number.is_multiple_of(2) {
        return Drawn {
            kind: "correct",
            bytes: stream.bytes,
            records,
            modes,
        };
    }
    let (damage, kind) = random.pick(&DAMAGES);
    let shape = any_shape(&mut random);
    let other = shaped(random.next(), shape);
    Drawn {
        kind,
        bytes: damaged(&mut random, damage, &stream, &other),
        records: if damage == Damage::Random { 0 } else { records },
        modes,
    }
}

fn name_of(mode: Mode) -> &'static str {
    MODES[mode as usize].1
}

pub struct Comparison {
    program: Program,
    seed: u64,
    pub counts: Counts,
}

impl Comparison {
    pub fn new(named: Named, seed: u64) -> io::Result<Self> {
        Ok(Comparison {
            program: Program::new(named)?,
            seed,
            counts: Counts::default(),
        })
    }

    // What the reference writes.
    fn expected(&mut self, drawn: &Drawn) -> io::Result<Vec<u8>> {
        let mut output = vec![];
        let mut answered = 0;
        let bad = reference::run(&drawn.bytes, &mut output, |answer| {
            answered += 1;
            self.counts.answered(answer);
        })?;
        self.counts.stream(drawn.kind, drawn.records, answered, bad);
        Ok(output)
    }

    // Puts one stream to the program.
    pub fn stream(&mut self, number: u64) -> io::Result<Option<Difference>> {
        let drawn = drawn(self.seed, number);
        let expected = self.expected(&drawn)?;
        let limit = expected.len() + TOO_MANY;
        for mode in drawn.modes {
            self.counts.ran(mode);
            let seed = self.seed ^ number;
            let Ran { output, status } = self.program.run(&drawn.bytes, mode, limit, seed)?;
            if output != expected || !status.success() {
                return Ok(Some(Difference {
                    number,
                    kind: drawn.kind,
                    mode: name_of(mode),
                    stream: drawn.bytes,
                    expected,
                    found: output,
                    status,
                }));
            }
        }
        Ok(None)
    }
}

// The line at that place of the output, as far as it is there.
fn line_at(output: &[u8], number: usize) -> String {
    let line = output.split_inclusive(|byte| *byte == b'\n').nth(number);
    match line {
        Some(line) => format!("{:?}", String::from_utf8_lossy(line)),
        None => "nothing".to_string(),
    }
}

impl Difference {
    // Writes the stream to a file, and says what differs.
    fn report(&self, seed: u64) -> io::Result<String> {
        let Difference {
            number,
            kind,
            mode,
            expected,
            found,
            status,
            ..
        } = self;
        let path = env::temp_dir().join(format!("stream-{seed:x}-{number}"));
        fs::write(&path, &self.stream)?;
        let same = expected.iter().zip(found).take_while(|(a, b)| a == b);
        let place = same.count();
        let line = expected[..place]
            .iter()
            .filter(|byte| **byte == b'\n')
            .count();
        Ok(format!(
            "DIFFERENCE in stream {number} of seed {seed:#x} ({kind}; {mode}), saved as {}\n\
             line {}: expected {}, found {}\n\
             {} bytes expected, {} found; {status}",
            path.display(),
            line + 1,
            line_at(expected, line),
            line_at(found, line),
            expected.len(),
            found.len(),
        ))
    }
}

// Compares so many streams, and prints what was met. Is there no difference?
pub fn compare(named: Named, seed: u64, streams: u64) -> io::Result<bool> {
    println!("seed {seed:#x}, {streams} streams\n");
    let mut comparison = Comparison::new(named, seed)?;
    for number in 0..streams {
        if let Some(difference) = comparison.stream(number)? {
            println!("{}", difference.report(seed)?);
            return Ok(false);
        }
        if number > 0 && number.is_multiple_of(STRIDE) {
            eprintln!("{number} streams");
        }
    }
    comparison.counts.print();
    let missing = comparison.counts.missing();
    if streams >= WHOLE && !missing.is_empty() {
        println!("\nNEVER MET: {}", missing.join("; "));
        return Ok(false);
    }
    println!("\nno difference");
    Ok(true)
}

// A program run on one stream: how its input is delivered, how its output is taken, and an end to one that hangs.
use crate::random::Random;
use std::fmt::Display;
use std::fs::{File, OpenOptions, remove_file};
use std::io::{Error, ErrorKind, Read, Result, Seek, Write};
use std::path::PathBuf;
use std::process::{Child, ChildStdin, ChildStdout, Command, ExitStatus, Stdio};
use std::sync::atomic::{AtomicU64, Ordering};
use std::sync::{Arc, Mutex, Weak};
use std::time::{Duration, Instant};
use std::{env, process, thread};

// How standard input and standard output are served.
#[derive(Clone, Copy, Debug, PartialEq, Eq, PartialOrd, Ord)]
pub enum Mode {
    // Input is a file.
    File,
    // Input is a pipe, written at once.
    Pipe,
    // Input is a pipe, written 1 to 7 bytes at a time.
    Trickle,
    // Input is a file, and output a pipe that is read 1 to 7 bytes at a time.
    SlowOutput,
}

pub const MODES: [(Mode, &str); 4] = [
    (Mode::File, "input a file"),
    (Mode::Pipe, "input a pipe"),
    (Mode::Trickle, "input 1 to 7 bytes at a time"),
    (Mode::SlowOutput, "output read 1 to 7 bytes at a time"),
];

const FEW: usize = 7;
// A program that takes longer is ended.
const PATIENCE: Duration = Duration::from_secs(60);
const LOOK: Duration = Duration::from_secs(1);

// A program with its arguments.
#[derive(Clone)]
pub struct Named {
    pub path: PathBuf,
    pub args: Vec<String>,
}

impl Named {
    // This program itself.
    pub fn own(args: &[&str]) -> Self {
        Named {
            path: env::current_exe().expect("this program has a path"),
            args: args.iter().map(|arg| arg.to_string()).collect(),
        }
    }

    pub fn command(&self) -> Command {
        let mut command = Command::new(&self.path);
        command.args(&self.args);
        command
    }

    // What went wrong with it.
    pub fn error(&self, error: impl Display) -> Error {
        Error::other(format!("{}: {error}", self.path.display()))
    }
}

struct Running {
    child: Child,
    since: Instant,
}

type Slot = Mutex<Option<Running>>;

pub struct Program {
    named: Named,
    input: File,
    running: Arc<Slot>,
}

pub struct Ran {
    pub output: Vec<u8>,
    pub status: ExitStatus,
}

// A file for this process alone, which goes when it is closed.
pub fn scratch_file() -> Result<File> {
    static NEXT: AtomicU64 = AtomicU64::new(0);
    let number = NEXT.fetch_add(1, Ordering::Relaxed);
    let path = env::temp_dir().join(format!("streams-{}-{number}", process::id()));
    let mut options = OpenOptions::new();
    let file = options
        .read(true)
        .write(true)
        .create_new(true)
        .open(&path)?;
    remove_file(&path)?;
    Ok(file)
}

// Ends what runs too long, as long as there is someone to run something.
fn watch(running: Weak<Slot>) {
    while let Some(running) = running.upgrade() {
        if let Some(Running { child, since }) = &mut *running.lock().expect("no panic")
            && since.elapsed() > PATIENCE
        {
            // It may have ended by itself meanwhile.
            child.kill().ok();
        }
        drop(running);
        thread::sleep(LOOK);
    }
}

// A program that has ended reading leaves the rest unread.
fn feed(mut input: ChildStdin, stream: &[u8], mode: Mode, seed: u64) {
    if mode == Mode::Pipe {
        input.write_all(stream).ok();
        return;
    }
    let mut random = Random(seed);
    let mut rest = stream;
    while !rest.is_empty() {
        let (few, later) = rest.split_at(rest.len().min(1 + random.below(FEW)));
        if input.write_all(few).is_err() {
            return;
        }
        thread::yield_now();
        rest = later;
    }
}

// At most so many bytes of the output.
fn take(mut output: ChildStdout, mode: Mode, limit: usize, seed: u64) -> Result<Vec<u8>> {
    let mut taken = vec![];
    if mode != Mode::SlowOutput {
        output.take(limit as u64).read_to_end(&mut taken)?;
        return Ok(taken);
    }
    let mut random = Random(seed);
    let mut few = [0; FEW];
    while taken.len() < limit {
        let room = 1 + random.below(FEW);
        match output.read(&mut few[..room]) {
            Ok(0) => break,
            Ok(count) => taken.extend(&few[..count]),
            Err(error) if error.kind() == ErrorKind::Interrupted => {}
            Err(error) => return Err(error),
        }
        thread::yield_now();
    }
    Ok(taken)
}

impl Program {
    pub fn new(named: Named) -> Result<Self> {
        let running = Arc::new(Mutex::new(None));
        let watched = Arc::downgrade(&running);
        thread::spawn(|| watch(watched));
        Ok(Program {
            named,
            input: scratch_file()?,
            running,
        })
    }

    fn file_of(&mut self, stream: &[u8]) -> Result<Stdio> {
        self.input.rewind()?;
        self.input.set_len(0)?;
        self.input.write_all(stream)?;
        self.input.rewind()?;
        Ok(self.input.try_clone()?.into())
    }

    // What the program writes for the stream, up to a limit, and how it ends.
    pub fn run(&mut self, stream: &[u8], mode: Mode, limit: usize, seed: u64) -> Result<Ran> {
        let input = match mode {
            Mode::File | Mode::SlowOutput => self.file_of(stream)?,
            Mode::Pipe | Mode::Trickle => Stdio::piped(),
        };
        let mut command = self.named.command();
        let spawned = command.stdin(input).stdout(Stdio::piped()).spawn();
        let mut child = spawned.map_err(|error| self.named.error(error))?;
        let (input, output) = (child.stdin.take(), child.stdout.take());
        let since = Instant::now();
        *self.running.lock().expect("no panic") = Some(Running { child, since });
        let output = thread::scope(|scope| {
            if let Some(input) = input {
                scope.spawn(move || feed(input, stream, mode, seed));
            }
            take(output.expect("piped"), mode, limit, seed)
        });
        let running = self.running.lock().expect("no panic").take();
        let status = running.expect("it was put there").child.wait()?;
        Ok(Ran {
            output: output?,
            status,
        })
    }
}

// The program native_vectors as a side: it is sent the words that differ from those that it holds, and then the call.
use crate::call::{Answer, Call, Side};
use crate::lines::{
    DONE, HELD, call_line, has_line, peek_line, place_lines, read_answer, read_words, sums,
};
use crate::words::{LIMIT, REGION, start_of};
use std::io::{BufRead, BufReader, BufWriter, Write};
use std::process::{Child, ChildStdin, ChildStdout, Command, Stdio};

// The most lines asked at once, so that neither pipe fills up.
const BATCH: usize = 256;

pub struct Program {
    // What the program holds.
    held: Vec<u64>,
    input: BufWriter<ChildStdin>,
    output: BufReader<ChildStdout>,
    _child: Child,
}

impl Program {
    pub fn new(path: &str) -> Self {
        let mut child = Command::new(path)
            .stdin(Stdio::piped())
            .stdout(Stdio::piped())
            .spawn()
            .unwrap_or_else(|error| panic!("{path}: {error}"));
        let input = BufWriter::new(child.stdin.take().expect("piped"));
        let output = BufReader::new(child.stdout.take().expect("piped"));
        Program {
            held: vec![0; HELD],
            input,
            output,
            _child: child,
        }
    }

    fn send(&mut self, line: &str) {
        self.input
            .write_all(line.as_bytes())
            .expect("the program reads");
    }

    fn receive(&mut self) -> String {
        let mut line = String::new();
        self.input.flush().expect("the program reads");
        self.output
            .read_line(&mut line)
            .expect("the program writes");
        assert!(!line.is_empty(), "the program stopped");
        line
    }

    // Has the program hold these words at its start.
    fn place(&mut self, region: &[u64]) {
        let lines = place_lines(region, &mut self.held);
        for line in &lines {
            self.send(line);
        }
        for _ in lines {
            assert_eq!(self.receive(), DONE);
        }
    }

    // Reads words back, from each place four.
    fn fetch(&mut self, places: &[usize]) {
        for batch in places.chunks(BATCH) {
            for at in batch {
                self.send(&peek_line(*at));
            }
            for at in batch {
                let line = self.receive();
                let words = read_words(&line).unwrap_or_else(|| panic!("no words: {line}"));
                self.held[*at..][..4].copy_from_slice(&words);
            }
        }
    }

    // Reads back what a call changed: the count and the new nodes, or else all that a call can change.
    fn refresh(&mut self, expected: u128) {
        let count_of = |held: &[u64]| held[0].min(LIMIT as u64) as usize;
        let before = count_of(&self.held);
        self.fetch(&[0]);
        let [start, end] = [before, count_of(&self.held)].map(start_of);
        let places: Vec<usize> = (start..end).step_by(4).collect();
        self.fetch(&places);
        if sums(&self.held) != expected {
            let mut places: Vec<usize> = (0..REGION - 4).step_by(4).collect();
            places.push(REGION - 4);
            self.fetch(&places);
        }
        assert_eq!(sums(&self.held), expected, "the sums of the words");
    }
}

impl Side for Program {
    fn call(&mut self, region: &mut [u64], call: &Call) -> Answer {
        self.place(region);
        self.send(&call_line(call, region.len()));
        let line = self.receive();
        let (answer, expected) = read_answer(&line).unwrap_or_else(|| panic!("no answer: {line}"));
        if sums(&self.held) != expected {
            self.refresh(expected);
        }
        region.copy_from_slice(&self.held[..region.len()]);
        answer
    }

    fn takes(&self, call: &Call) -> bool {
        has_line(call)
    }
}

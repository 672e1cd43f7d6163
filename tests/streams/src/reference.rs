// The program as it has to be, over the original's graph: records in, lines out.
use crate::call::Answer;
use crate::lines::{write_answer, write_bad, write_nodes};
use crate::native::{Graph, Scalar};
use crate::original::{apply, retain};
use crate::record::{self, Bad, Record};
use crate::words::LIMIT;
use std::io::{BufWriter, Read, Result, Write, stdin, stdout};

// The graph of a stream, and room for a retain's mapping.
#[derive(Clone)]
pub struct Session {
    graph: Graph,
    mapping: [u64; LIMIT],
}

impl Session {
    pub fn new() -> Self {
        Session {
            graph: Graph::default(),
            mapping: [0; LIMIT],
        }
    }

    pub fn scalars(&self) -> &[Scalar] {
        &self.graph.scalars
    }

    pub fn count(&self) -> usize {
        self.graph.scalars.len()
    }

    pub fn answer(&mut self, record: &Record) -> Answer {
        let count = self.count();
        match record {
            Record::Call(call) => apply(&mut self.graph, call),
            Record::Retain(keep) => retain(&mut self.graph, keep, &mut self.mapping[..count]),
        }
    }
}

// Answers the records of the input. `hear` is told each answer. The bad record, if one ended reading.
pub fn run(
    mut input: &[u8],
    output: &mut impl Write,
    mut hear: impl FnMut(Answer),
) -> Result<Option<Bad>> {
    let mut session = Session::new();
    let mut bad = None;
    while let Some(next) = record::next(input) {
        match next {
            Ok((record, rest)) => {
                let answer = session.answer(&record);
                write_answer(answer, output)?;
                hear(answer);
                input = rest;
            }
            Err(found) => {
                write_bad(output)?;
                bad = Some(found);
                break;
            }
        }
    }
    write_nodes(session.count(), output)?;
    Ok(bad)
}

// The same, from standard input to standard output.
pub fn serve() -> Result<()> {
    let mut input = vec![];
    stdin().lock().read_to_end(&mut input)?;
    let mut output = BufWriter::with_capacity(1 << 16, stdout().lock());
    run(&input, &mut output, |_| ())?;
    output.flush()
}

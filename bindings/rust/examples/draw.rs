//! Draws the graph that records lead to, as `scalars` would build it: records (docs/RECORDS.md) from standard input, a
//! digraph for Graphviz to standard output, or with the argument `text` one node a line. A retain at the end is not
//! carried out: the nodes that it drops are drawn so.
use scalars::{Binary, Graph, Range, Refusal, ScalarType, Unary};
use std::env;
use std::io::{self, Read};
use std::process::ExitCode;

/// The bytes of a record's body still to be read.
struct Body<'a>(&'a [u8]);

impl Body<'_> {
    /// The next number of so many bytes, low byte first.
    fn take(&mut self, bytes: usize) -> Option<u128> {
        let (first, rest) = self.0.split_at_checked(bytes)?;
        self.0 = rest;
        Some(
            first
                .iter()
                .rev()
                .fold(0, |value, byte| value << 8 | u128::from(*byte)),
        )
    }

    fn small(&mut self, bytes: usize) -> Option<u16> {
        self.take(bytes)?.try_into().ok()
    }

    fn id(&mut self) -> Option<usize> {
        self.small(2).map(usize::from)
    }

    fn number(&mut self) -> Option<usize> {
        self.take(8)?.try_into().ok()
    }

    fn code(&mut self) -> Option<u64> {
        self.take(1)?.try_into().ok()
    }

    fn ty(&mut self) -> Option<ScalarType> {
        ScalarType::from_code(self.code()?, self.code()?)
    }

    fn unary(&mut self) -> Option<Unary> {
        Unary::from_code(self.code()?, self.code()?)
    }

    fn binary(&mut self) -> Option<Binary> {
        Binary::from_code(self.code()?)
    }

    fn range(&mut self) -> Option<Option<Range>> {
        match self.take(1)? {
            0 => Some(None),
            1 => {
                let (min, max) = (self.take(16)? as i128, self.take(16)? as i128);
                Some(Some(Range { min, max }))
            }
            _ => None,
        }
    }

    fn truth(&mut self) -> Option<bool> {
        match self.take(1)? {
            0 => Some(false),
            1 => Some(true),
            _ => None,
        }
    }
}

/// Makes the call of a record other than retain; none if the record is bad.
fn call(graph: &mut Graph, tag: u8, b: &mut Body) -> Option<Result<(), Refusal>> {
    let answer = match tag {
        1 => graph.try_constant(b.ty()?, b.take(16)?).map(drop),
        2 => {
            let (number, ty) = (b.number()?, b.ty()?);
            graph.try_input(number, ty, b.range()?).map(drop)
        }
        3 => graph.try_effect(b.number()?, b.ty()?).map(drop),
        4 => graph.try_unary(b.ty()?, b.unary()?, b.id()?).map(drop),
        5 => {
            let (ty, operator) = (b.ty()?, b.binary()?);
            graph.try_binary(ty, operator, b.id()?, b.id()?).map(drop)
        }
        6 => graph.try_slice(b.id()?, b.small(2)?, b.small(1)?).map(drop),
        7 => {
            let (high, low) = (b.id()?, b.id()?);
            graph
                .try_concat(high, low, b.small(1)?, b.small(1)?)
                .map(drop)
        }
        8 => {
            let id = b.id()?;
            graph
                .try_unsigned_range(id, b.take(16)?, b.take(16)?)
                .map(drop)
        }
        9 => graph.try_assume_guard(b.id()?, b.truth()?),
        _ => return None,
    };
    b.0.is_empty().then_some(answer)
}

/// The tag and the body of the first record, and what comes after it.
fn split(input: &[u8]) -> Option<(u8, &[u8], &[u8])> {
    let ([tag, low, high], rest) = input.split_first_chunk()?;
    let length = usize::from(u16::from_le_bytes([*low, *high]));
    let (body, rest) = rest.split_at_checked(length)?;
    Some((*tag, body, rest))
}

const RETAIN: u8 = 10;

/// The list of a retain; none if an element is neither 0 nor 1.
fn keep_list(body: &[u8]) -> Option<Vec<bool>> {
    let elements = body.iter().map(|byte| Body(&[*byte]).truth());
    elements.collect()
}

/// The graph after the records, and the list of a retain at the end. A record is told by its number if it is bad.
fn build(mut input: &[u8]) -> Result<(Graph, Vec<bool>), usize> {
    let mut graph = Graph::default();
    let mut number = 0_usize;
    while !input.is_empty() {
        number += 1;
        let (tag, body, rest) = split(input).ok_or(number)?;
        let answer = if tag == RETAIN {
            let keep = keep_list(body).ok_or(number)?;
            if rest.is_empty() {
                return Ok((graph, keep));
            }
            graph.try_retain(&keep).map(drop)
        } else {
            call(&mut graph, tag, &mut Body(body)).ok_or(number)?
        };
        if let Err(refusal) = answer {
            eprintln!("record {number}: {refusal}");
        }
        input = rest;
    }
    Ok((graph, vec![]))
}

fn main() -> ExitCode {
    let mut input = vec![];
    if let Err(error) = io::stdin().read_to_end(&mut input) {
        eprintln!("{error}");
        return ExitCode::FAILURE;
    }
    match build(&input) {
        Ok((graph, _)) if env::args().nth(1).as_deref() == Some("text") => print!("{graph}"),
        Ok((graph, keep)) => print!("{}", graph.picture().dropping(&keep)),
        Err(number) => {
            eprintln!("record {number} is bad");
            return ExitCode::FAILURE;
        }
    }
    ExitCode::SUCCESS
}

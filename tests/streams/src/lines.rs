// The lines that answer records, as docs/RECORDS.md has them.
use crate::call::Answer;
use std::io::{Result, Write};

// The line of a record's answer. No record has an answer of another kind.
pub fn write_answer(answer: Answer, output: &mut impl Write) -> Result<()> {
    match answer {
        Answer::Id(id) => writeln!(output, "id {id}"),
        Answer::None => output.write_all(b"none\n"),
        Answer::Done => output.write_all(b"done\n"),
        Answer::Kept(count) => writeln!(output, "kept {count}"),
        Answer::Refused(number) => writeln!(output, "refused {number}"),
        other => unreachable!("{other:?} answers no record"),
    }
}

pub fn write_bad(output: &mut impl Write) -> Result<()> {
    output.write_all(b"bad record\n")
}

// The last line.
pub fn write_nodes(count: usize, output: &mut impl Write) -> Result<()> {
    writeln!(output, "nodes {count}")
}

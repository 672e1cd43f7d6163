// The reference with one fault, to show that a comparison sees it.
use crate::call::{Answer, Call};
use crate::compare::{Comparison, Difference};
use crate::lines::{write_answer, write_bad, write_nodes};
use crate::program::Named;
use crate::record::{
    BINARY, Bad, CONSTANT, EFFECT, Framed, GUARD, HEADER, INPUT, PLAIN_INPUT, RETAIN, Record,
    SLICE, UNARY, Why, decode, split,
};
use crate::reference::Session;
use std::io::{Read, Result, Write, stdin, stdout};

#[derive(Clone, Copy, Debug, PartialEq, Eq)]
pub enum Fault {
    Nothing,
    LengthReversed,
    IdReversed,
    HalfConstant,
    ByteOffset,
    FlagAboveOne,
    ExpectedAboveOne,
    PlainParameter,
    BoolWidth,
    IntegerWidth,
    OperatorRefused,
    LongInput,
    WideIsBad,
    RetainLengthIsBad,
    KeepAboveOne,
    RefusedBeforeBad,
    GoesOn,
    KeptOneMore,
    GuardForgotten,
    RetainForgotten,
    NoLastNewline,
    NoNodesAfterBad,
    EndInHeaderPasses,
    EndInBodyPasses,
    LostAtBlock,
    ShortReadEnds,
    LostAtOutputBlock,
}

pub const FAULTS: [(Fault, &str); 27] = [
    (Fault::Nothing, "nothing wrong"),
    (Fault::LengthReversed, "length read big-endian"),
    (Fault::IdReversed, "id of a slice read big-endian"),
    (Fault::HalfConstant, "high half of a constant not read"),
    (Fault::ByteOffset, "offset read as one byte"),
    (Fault::FlagAboveOne, "flag above 1 taken for 1"),
    (Fault::ExpectedAboveOne, "expected above 1 taken for 1"),
    (
        Fault::PlainParameter,
        "parameter of BoolNot, BitNot, Negate let through",
    ),
    (Fault::BoolWidth, "width of Bool let through"),
    (Fault::IntegerWidth, "width of Integer let through"),
    (
        Fault::OperatorRefused,
        "operator that there is not refused 4",
    ),
    (Fault::LongInput, "input with flag 0 and two numbers taken"),
    (Fault::WideIsBad, "width above 128 a bad record"),
    (
        Fault::RetainLengthIsBad,
        "retain of another length a bad record",
    ),
    (Fault::KeepAboveOne, "keep element above 1 taken for 1"),
    (Fault::RefusedBeforeBad, "refused 3 before bad record"),
    (Fault::GoesOn, "reading goes on after a bad record"),
    (Fault::KeptOneMore, "kept number one too high"),
    (Fault::GuardForgotten, "guard that narrows nothing"),
    (Fault::RetainForgotten, "retain that drops nothing"),
    (Fault::NoLastNewline, "last line without a newline"),
    (Fault::NoNodesAfterBad, "no last line after a bad record"),
    (Fault::EndInHeaderPasses, "end of input in a header passes"),
    (Fault::EndInBodyPasses, "end of input in a body passes"),
    (Fault::LostAtBlock, "record across two blocks of input lost"),
    (
        Fault::ShortReadEnds,
        "short read taken for the end of input",
    ),
    (
        Fault::LostAtOutputBlock,
        "byte lost where a block of output is full",
    ),
];

// The streams for the program without a fault.
const RIGHT_STREAMS: u64 = 300;

// The blocks of the faults that lose something between two.
const BLOCK: usize = 4096;

// The input up to the first read that gives less than a block.
fn read_short() -> Result<Vec<u8>> {
    let mut input = vec![];
    let mut block = [0; BLOCK];
    loop {
        let count = stdin().lock().read(&mut block)?;
        input.extend(&block[..count]);
        if count < BLOCK {
            return Ok(input);
        }
    }
}

fn read(fault: Fault) -> Result<Vec<u8>> {
    if fault == Fault::ShortReadEnds {
        return read_short();
    }
    let mut input = vec![];
    stdin().lock().read_to_end(&mut input)?;
    Ok(input)
}

// The first record of the input as the fault sees it, and how many bytes it has.
fn first<'a>(
    fault: Fault,
    input: &'a mut [u8],
) -> Option<std::result::Result<(Framed<'a>, usize), Bad>> {
    if fault == Fault::LengthReversed && input.len() >= HEADER {
        input.swap(1, 2);
    }
    let split = split(input)?;
    Some(split.map(|(framed, _)| (framed, HEADER + framed.body.len())))
}

// Where the type of a record stands in its body.
fn type_place(tag: u8) -> Option<usize> {
    match tag {
        CONSTANT | UNARY | BINARY => Some(0),
        INPUT | EFFECT => Some(8),
        _ => None,
    }
}

fn drop_width(tag: u8, body: &mut [u8], code: u8) {
    if let Some(at) = type_place(tag)
        && body.len() > at + 1
        && body[at] == code
    {
        body[at + 1] = 0;
    }
}

// The body as the fault reads it.
fn misread(fault: Fault, tag: u8, body: &mut Vec<u8>) {
    let length = body.len();
    match (fault, tag) {
        (Fault::IdReversed, SLICE) if length >= 2 => body.swap(0, 1),
        (Fault::HalfConstant, CONSTANT) if length == 18 => body[10..].fill(0),
        (Fault::ByteOffset, SLICE) if length == 5 => body[3] = 0,
        (Fault::FlagAboveOne, INPUT) if length > PLAIN_INPUT && body[10] > 1 => body[10] = 1,
        (Fault::ExpectedAboveOne, GUARD) if length == 3 && body[2] > 1 => body[2] = 1,
        (Fault::PlainParameter, UNARY) if length == 6 && (10..=12).contains(&body[2]) => {
            body[3] = 0
        }
        (Fault::BoolWidth, _) => drop_width(tag, body, 0),
        (Fault::IntegerWidth, _) => drop_width(tag, body, 2),
        (Fault::LongInput, INPUT) if length > PLAIN_INPUT && body[10] == 0 => {
            body.truncate(PLAIN_INPUT)
        }
        (Fault::KeepAboveOne, RETAIN) => body
            .iter_mut()
            .for_each(|element| *element = (*element).min(1)),
        _ => {}
    }
}

// The refusal that the fault has in the place of a bad record.
fn refused(fault: Fault, bad: Bad, body: &[u8], count: usize) -> Option<Answer> {
    if fault == Fault::OperatorRefused && bad.why == Why::Operator {
        return Some(Answer::Refused(4));
    }
    let at = match (bad.tag, bad.why) {
        (_, Why::Length) => return None,
        (UNARY, _) => 4,
        (BINARY, _) => 3,
        (GUARD, _) => 0,
        _ => return None,
    };
    let id = u16::from_le_bytes([body[at], body[at + 1]]);
    let is_first = fault == Fault::RefusedBeforeBad && usize::from(id) >= count;
    is_first.then_some(Answer::Refused(3))
}

// Does the fault take a right record for a bad one?
fn is_bad(fault: Fault, record: &Record, count: usize) -> bool {
    match record {
        Record::Call(call) => {
            fault == Fault::WideIsBad && call.widths().iter().any(|width| *width > 128)
        }
        Record::Retain(keep) => fault == Fault::RetainLengthIsBad && keep.len() != count,
    }
}

// Does the fault answer the record, and leave the graph as it is?
fn is_forgotten(fault: Fault, record: &Record) -> bool {
    match record {
        Record::Call(Call::AssumeGuard { .. }) => fault == Fault::GuardForgotten,
        Record::Call(_) => false,
        Record::Retain(_) => fault == Fault::RetainForgotten,
    }
}

// The answer to a record, or none if the fault takes it for a bad one.
fn answer(fault: Fault, session: &mut Session, framed: Framed) -> Option<Answer> {
    let mut body = framed.body.to_vec();
    misread(fault, framed.tag, &mut body);
    let count = session.count();
    let tag = framed.tag;
    let framed = Framed { tag, body: &body };
    let record = match decode(framed) {
        Ok(record) if is_bad(fault, &record, count) => return None,
        Ok(record) => record,
        Err(bad) => return refused(fault, bad, &body, count),
    };
    if is_forgotten(fault, &record) {
        return Some(session.clone().answer(&record));
    }
    Some(match session.answer(&record) {
        Answer::Kept(count) if fault == Fault::KeptOneMore => Answer::Kept(count + 1),
        answer => answer,
    })
}

// Does the end of input inside a record pass?
fn is_end(fault: Fault, bad: Bad) -> bool {
    matches!(
        (fault, bad.why),
        (Fault::EndInHeaderPasses, Why::EndInHeader) | (Fault::EndInBodyPasses, Why::EndInBody)
    )
}

// The lines that the fault writes before the last. Did a bad record end reading?
fn answer_all(
    fault: Fault,
    session: &mut Session,
    input: &mut [u8],
    output: &mut Vec<u8>,
) -> Result<bool> {
    let mut start = 0;
    while let Some(first) = first(fault, &mut input[start..]) {
        let (framed, length) = match first {
            Ok(first) => first,
            Err(bad) if is_end(fault, bad) => return Ok(false),
            Err(_) => {
                write_bad(output)?;
                return Ok(true);
            }
        };
        let is_across = start / BLOCK != (start + length - 1) / BLOCK;
        start += length;
        if fault == Fault::LostAtBlock && is_across {
            continue;
        }
        match answer(fault, session, framed) {
            Some(answer) => write_answer(answer, output)?,
            None => write_bad(output)?,
        }
        if output.ends_with(b"bad record\n") && fault != Fault::GoesOn {
            return Ok(true);
        }
    }
    Ok(false)
}

// Does what the reference does, but for the fault.
pub fn serve(fault: Fault) -> Result<()> {
    let mut input = read(fault)?;
    let mut session = Session::new();
    let mut output = vec![];
    let is_bad = answer_all(fault, &mut session, &mut input, &mut output)?;
    if !(is_bad && fault == Fault::NoNodesAfterBad) {
        write_nodes(session.count(), &mut output)?;
    }
    if fault == Fault::NoLastNewline {
        output.pop();
    }
    if fault == Fault::LostAtOutputBlock && output.len() > BLOCK {
        output.remove(BLOCK);
    }
    stdout().write_all(&output)
}

// The first difference that is seen in so many streams, if there is one.
fn difference(number: usize, seed: u64, streams: u64) -> Result<Option<Difference>> {
    let named = Named::own(&["faulty", &number.to_string()]);
    let mut comparison = Comparison::new(named, seed)?;
    for stream in 0..streams {
        let difference = comparison.stream(stream)?;
        if difference.is_some() {
            return Ok(difference);
        }
    }
    Ok(None)
}

// Compares each faulty program until a difference is seen. Was one seen for all of them, and none where nothing is
// wrong?
pub fn compare(seed: u64, streams: u64) -> Result<bool> {
    let mut is_right = true;
    for (number, (fault, name)) in FAULTS.into_iter().enumerate() {
        let is_fault = fault != Fault::Nothing;
        let streams = if is_fault {
            streams
        } else {
            streams.min(RIGHT_STREAMS)
        };
        let found = difference(number, seed, streams)?;
        is_right &= found.is_some() == is_fault;
        match found {
            Some(Difference {
                number, kind, mode, ..
            }) => println!("{name}: seen at stream {number} ({kind}; {mode})"),
            None => println!("{name}: not seen in {streams} streams"),
        }
    }
    println!(
        "\n{}",
        if is_right {
            "each fault is seen"
        } else {
            "NOT AS IT SHOULD BE"
        }
    );
    Ok(is_right)
}

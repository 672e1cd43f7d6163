// The text that the program native_vectors reads and writes.
//
// The lines of guards, by the fields kind, length, number, type, width, flag and the two words:
//   9 assume_guard: number the condition, flag what is expected. Answers `done`, or a refusal.
//   14 guard: number the condition, flag what is expected. Answers `guard` and 32 digits, `none`, or a refusal. The
//     digits' high half is the operator's code · 65536 + expected · 256 + host64, the low half left · 2^32 + right.
//   15 matches: number what is expected, width host64, flag the operator's code, the words the two values. It looks at
//     no word of the region. Answers `yes` or `no`, or a refusal.
// The fields that a line does not use are 0. After each of these answers stand the sums of all words, as after others.
use crate::call::{Answer, Call, GUARD_WORDS, TypeCode, VALUE_WORDS};
use crate::words::{halves, joined};

// The words that the program holds: the region, one word past its end, and the mapping of a retain.
pub const HELD: usize = MAPPING + LISTED;
pub const MAPPING: usize = 6146;
// The most elements of a keep list or a mapping in a line.
const LISTED: usize = 256;

// The kinds of lines by their numbers.
#[derive(Clone, Copy)]
enum Kind {
    Constant = 1,
    Input = 2,
    Effect = 3,
    Unary = 4,
    Binary = 5,
    Slice = 6,
    Concat = 7,
    UnsignedRange = 8,
    AssumeGuard = 9,
    Retain = 10,
    Literal = 11,
    Resolve = 12,
    IsGraph = 13,
    Guard = 14,
    Matches = 15,
    Reset = 16,
    Poke = 17,
    Peek = 18,
}

struct Line {
    kind: Kind,
    len: usize,
    number: u64,
    ty: TypeCode,
    flag: u8,
    a: u128,
    b: u128,
}

impl Line {
    fn new(kind: Kind, len: usize, number: u64) -> Self {
        Line {
            kind,
            len,
            number,
            ty: TypeCode { code: 0, width: 0 },
            flag: 0,
            a: 0,
            b: 0,
        }
    }

    fn of(self, ty: TypeCode, flag: u8) -> Self {
        Line { ty, flag, ..self }
    }

    // A width without a type.
    fn wide(self, width: u64) -> Self {
        self.of(TypeCode { code: 0, width }, 0)
    }

    fn with<T: Into<u128>>(self, a: T, b: T) -> Self {
        let (a, b) = (a.into(), b.into());
        Line { a, b, ..self }
    }

    fn text(self) -> String {
        let Line {
            kind,
            len,
            number,
            ty,
            flag,
            a,
            b,
        } = self;
        let TypeCode { code, width } = ty;
        let kind = kind as u8;
        format!(
            "{kind:02x} {len:04x} {number:016x} {code:02x} {width:04x} {flag:02x} {a:032x} {b:032x}\n"
        )
    }
}

fn builder_line(call: &Call, len: usize) -> Option<Line> {
    let line = |kind, number| Line::new(kind, len, number);
    Some(match *call {
        Call::Unary {
            ty,
            op,
            parameter,
            id,
        } => line(Kind::Unary, id).of(ty, op as u8).with(parameter, 0),
        Call::Binary {
            ty,
            op,
            left,
            right,
        } => line(Kind::Binary, left).of(ty, op as u8).with(right, 0),
        Call::Slice { id, offset, width } => line(Kind::Slice, id).wide(width).with(offset, 0),
        Call::Concat {
            high,
            low,
            low_width,
            width,
        } => line(Kind::Concat, high).wide(width).with(low, low_width),
        Call::UnsignedRange { id, low, high } => line(Kind::UnsignedRange, id).with(low, high),
        _ => return None,
    })
}

fn leaf_line(call: &Call, len: usize) -> Option<Line> {
    let line = |kind, number| Line::new(kind, len, number);
    Some(match *call {
        Call::Constant { ty, value } => line(Kind::Constant, 0).of(ty, 0).with(value, 0),
        Call::Input { number, ty, range } => {
            let min = range.map_or(0, |range| range.min as u128);
            let max = range.map_or(0, |range| range.max as u128);
            let flag = range.is_some().into();
            line(Kind::Input, number).of(ty, flag).with(min, max)
        }
        Call::Effect { number, ty } => line(Kind::Effect, number).of(ty, 0),
        Call::Literal { id, .. } => line(Kind::Literal, id),
        Call::Resolve { id } => line(Kind::Resolve, id),
        Call::IsGraph => line(Kind::IsGraph, 0),
        _ => return None,
    })
}

fn guard_line(call: &Call, len: usize) -> Option<Line> {
    let line = |kind, condition, expected| {
        let none = TypeCode { code: 0, width: 0 };
        Line::new(kind, len, condition).of(none, expected as u8)
    };
    Some(match *call {
        Call::AssumeGuard {
            condition,
            expected,
        } => line(Kind::AssumeGuard, condition, expected),
        Call::Guard {
            condition,
            expected,
            ..
        } => line(Kind::Guard, condition, expected),
        Call::Matches {
            op,
            expected,
            host64,
            left,
            right,
        } => {
            let wide = TypeCode {
                code: 0,
                width: host64,
            };
            let line = Line::new(Kind::Matches, len, expected);
            line.of(wide, op as u8).with(left, right)
        }
        _ => return None,
    })
}

// A call on the first words of those held.
pub fn call_line(call: &Call, len: usize) -> String {
    let line = leaf_line(call, len)
        .or_else(|| builder_line(call, len))
        .or_else(|| guard_line(call, len));
    line.expect("every call has a line").text()
}

// A retain, if a line can say it: at most one element is neither 0 nor 1.
pub fn retain_line(len: usize, keep: &[u8], mapping: usize) -> Option<String> {
    if keep.len().max(mapping) > LISTED {
        return None;
    }
    let mut bits = [0u128; 2];
    let mut special = None;
    for (place, element) in keep.iter().enumerate() {
        match element {
            0 => {}
            1 => bits[place / 128] |= 1 << (place % 128),
            _ if special.is_none() => special = Some((place, *element)),
            _ => return None,
        }
    }
    let (place, element) = special.unwrap_or((0, 0));
    let number = keep.len() as u64 | (place as u64) << 16;
    let line = Line::new(Kind::Retain, len, number);
    let ty = TypeCode {
        code: 0,
        width: mapping as u64,
    };
    Some(line.of(ty, element).with(bits[0], bits[1]).text())
}

// Can a line say it? A line has no place for codes that name nothing, and widths and offsets of 16 bits; a node and a
// value by themselves have none.
pub fn has_line(call: &Call) -> bool {
    let is_short = |number: &u64| *number < 1 << 16;
    call.is_named()
        && call.widths().iter().all(is_short)
        && match call {
            Call::Slice { offset, .. } => is_short(offset),
            Call::Literal { room, .. } => *room == VALUE_WORDS,
            Call::Guard { room, .. } => *room == GUARD_WORDS,
            Call::Node { .. } => false,
            _ => call.has_region() || matches!(call, Call::Matches { .. }),
        }
}

// Sets every word to 0.
fn reset_line() -> String {
    Line::new(Kind::Reset, 0, 0).text()
}

// Sets four words.
pub fn poke_line(at: usize, words: &[u64]) -> String {
    let [a, b] = [0, 2].map(|i| joined(words[at + i], words[at + i + 1]));
    Line::new(Kind::Poke, 0, at as u64).with(a, b).text()
}

// Has the region at the start of the words held, which it changes, and gives the lines that do this.
pub fn place_lines(region: &[u64], held: &mut [u64]) -> Vec<String> {
    let mut lines = vec![];
    let is_far = held[region.len()..].iter().any(|word| *word != 0);
    if is_far || region.first() == Some(&0) {
        held.fill(0);
        lines.push(reset_line());
    }
    let mut at = 0;
    while at < region.len() {
        if region[at] == held[at] {
            at += 1;
            continue;
        }
        let from = at.min(HELD - 4);
        let end = region.len().min(from + 4);
        held[from..end].copy_from_slice(&region[from..end]);
        lines.push(poke_line(from, held));
        at = from + 4;
    }
    lines
}

// Asks for four words.
pub fn peek_line(at: usize) -> String {
    Line::new(Kind::Peek, 0, at as u64).text()
}

// The sum of the words, and above it the sum of the sums on the way.
pub fn sums(words: &[u64]) -> u128 {
    let mut sum: u64 = 0;
    let mut sums: u64 = 0;
    for word in words {
        sum = sum.wrapping_add(*word);
        sums = sums.wrapping_add(sum);
    }
    u128::from(sums) << 64 | u128::from(sum)
}

// A guard as one word.
fn packed([op, left, right, expected, host64]: [u64; GUARD_WORDS]) -> u128 {
    joined(left << 32 | right, op << 16 | expected << 8 | host64)
}

fn unpacked(guard: u128) -> [u64; GUARD_WORDS] {
    let [low, high] = halves(guard);
    let (left, right) = (low >> 32, low & 0xffff_ffff);
    [high >> 16, left, right, high >> 8 & 0xff, high & 0xff]
}

pub fn answer_line(answer: Answer, words: &[u64]) -> String {
    let text = match answer {
        Answer::Id(id) => format!("id {id}"),
        Answer::Value(value) => format!("value {value:032x}"),
        Answer::None => "none".to_string(),
        Answer::Refused(number) => format!("refused {number}"),
        Answer::Is(true) => "yes".to_string(),
        Answer::Is(false) => "no".to_string(),
        Answer::Spoilt => "spoilt".to_string(),
        Answer::Kept(nodes) => format!("kept {nodes}"),
        Answer::Done => "done".to_string(),
        Answer::Guard(words) => format!("guard {:032x}", packed(words)),
        Answer::Node(_) | Answer::Mark(_) | Answer::WrongLength => {
            unreachable!("such a call has no line")
        }
    };
    format!("{text} {:032x}\n", sums(words))
}

pub const DONE: &str = "done\n";

pub fn words_line(at: usize, words: &[u64]) -> String {
    let [a, b, c, d] = [0, 1, 2, 3].map(|i| words[at + i]);
    format!("words {b:016x}{a:016x} {d:016x}{c:016x}\n")
}

// The answer of a line, and the sums after it.
pub fn read_answer(line: &str) -> Option<(Answer, u128)> {
    let (text, sums) = line.trim_end().rsplit_once(' ')?;
    let sums = u128::from_str_radix(sums, 16).ok()?;
    let (name, number) = text.split_once(' ').unwrap_or((text, ""));
    let answer = match name {
        "id" => Answer::Id(number.parse().ok()?),
        "value" => Answer::Value(u128::from_str_radix(number, 16).ok()?),
        "none" => Answer::None,
        "refused" => Answer::Refused(number.parse().ok()?),
        "yes" => Answer::Is(true),
        "no" => Answer::Is(false),
        "spoilt" => Answer::Spoilt,
        "done" => Answer::Done,
        "guard" => Answer::Guard(unpacked(u128::from_str_radix(number, 16).ok()?)),
        _ => return None,
    };
    Some((answer, sums))
}

// The four words of a line.
pub fn read_words(line: &str) -> Option<[u64; 4]> {
    let (a, b) = line.trim_end().strip_prefix("words ")?.split_once(' ')?;
    let a = u128::from_str_radix(a, 16).ok()?;
    let b = u128::from_str_radix(b, 16).ok()?;
    Some([a as u64, (a >> 64) as u64, b as u64, (b >> 64) as u64])
}

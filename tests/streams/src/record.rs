// The records of docs/RECORDS.md: input split into records, and a record's fields read. Writing is in encode.rs.
use crate::call::{Call, TypeCode};
use crate::native::Range;

pub const CONSTANT: u8 = 1;
pub const INPUT: u8 = 2;
pub const EFFECT: u8 = 3;
pub const UNARY: u8 = 4;
pub const BINARY: u8 = 5;
pub const SLICE: u8 = 6;
pub const CONCAT: u8 = 7;
pub const UNSIGNED_RANGE: u8 = 8;
pub const GUARD: u8 = 9;
pub const RETAIN: u8 = 10;

// The bytes before a body: the tag and the length.
pub const HEADER: usize = 3;

// The bodies of an input without and with a range.
pub const PLAIN_INPUT: usize = 11;
pub const RANGED_INPUT: usize = 43;

const BITS: u64 = 1;
const LAST_TYPE: u64 = 2;
// BoolNot, BitNot and Negate have no parameter.
const LAST_PLAIN: u64 = 12;

// A record as its bytes say it, with a tag and a body of any kind.
#[derive(Clone, Copy)]
pub struct Framed<'a> {
    pub tag: u8,
    pub body: &'a [u8],
}

// What a record asks for. A retain has the keep list as it stands there.
#[derive(Clone, Copy, Debug)]
pub enum Record<'a> {
    Call(Call),
    Retain(&'a [u8]),
}

// Why a record is bad.
#[derive(Clone, Copy, Debug, PartialEq, Eq, PartialOrd, Ord)]
pub enum Why {
    EndInHeader,
    EndInBody,
    Tag,
    Length,
    Type,
    TypeWidth,
    Operator,
    Parameter,
    Flag,
    Expected,
}

pub const WHYS: [(Why, &str); 10] = [
    (Why::EndInHeader, "end of input in the header"),
    (Why::EndInBody, "end of input in the body"),
    (Why::Tag, "tag"),
    (Why::Length, "length"),
    (Why::Type, "type code"),
    (Why::TypeWidth, "width of Bool or Integer"),
    (Why::Operator, "operator code"),
    (Why::Parameter, "parameter"),
    (Why::Flag, "flag"),
    (Why::Expected, "expected"),
];

// A bad record. Where there is a record at all, it has a tag.
#[derive(Clone, Copy, Debug, PartialEq, Eq)]
pub struct Bad {
    pub tag: u8,
    pub why: Why,
}

// The first record of the input and what comes after it, or nothing at the end of input.
pub fn split(input: &[u8]) -> Option<Result<(Framed<'_>, &[u8]), Bad>> {
    let tag = *input.first()?;
    let Some((header, rest)) = input.split_first_chunk::<HEADER>() else {
        let why = Why::EndInHeader;
        return Some(Err(Bad { tag, why }));
    };
    let length = u16::from_le_bytes([header[1], header[2]]).into();
    Some(match rest.split_at_checked(length) {
        Some((body, rest)) => Ok((Framed { tag, body }, rest)),
        None => {
            let why = Why::EndInBody;
            Err(Bad { tag, why })
        }
    })
}

// The fields not yet read. The body's length is that of its fields.
struct Fields<'a>(&'a [u8]);

impl Fields<'_> {
    fn next<const N: usize>(&mut self) -> [u8; N] {
        let (field, rest) = self.0.split_first_chunk().expect("the length is right");
        self.0 = rest;
        *field
    }

    fn byte(&mut self) -> u64 {
        self.next::<1>()[0].into()
    }

    fn short(&mut self) -> u64 {
        u16::from_le_bytes(self.next()).into()
    }

    fn number(&mut self) -> u64 {
        u64::from_le_bytes(self.next())
    }

    fn pattern(&mut self) -> u128 {
        u128::from_le_bytes(self.next())
    }

    fn signed(&mut self) -> i128 {
        i128::from_le_bytes(self.next())
    }

    fn ty(&mut self) -> Result<TypeCode, Why> {
        let (code, width) = (self.byte(), self.byte());
        if code > LAST_TYPE {
            return Err(Why::Type);
        }
        if code != BITS && width != 0 {
            return Err(Why::TypeWidth);
        }
        Ok(TypeCode { code, width })
    }

    fn operator(&mut self, codes: std::ops::RangeInclusive<u64>) -> Result<u64, Why> {
        let code = self.byte();
        codes.contains(&code).then_some(code).ok_or(Why::Operator)
    }

    fn constant(&mut self) -> Result<Call, Why> {
        Ok(Call::Constant {
            ty: self.ty()?,
            value: self.pattern(),
        })
    }

    fn input(&mut self) -> Result<Call, Why> {
        let (number, ty) = (self.number(), self.ty()?);
        let flag = self.byte();
        let has_range = !self.0.is_empty();
        let range = match (flag, has_range) {
            (0, false) => None,
            (1, true) => Some(Range {
                min: self.signed(),
                max: self.signed(),
            }),
            (0 | 1, _) => return Err(Why::Length),
            _ => return Err(Why::Flag),
        };
        Ok(Call::Input { number, ty, range })
    }

    fn effect(&mut self) -> Result<Call, Why> {
        Ok(Call::Effect {
            number: self.number(),
            ty: self.ty()?,
        })
    }

    fn unary(&mut self) -> Result<Call, Why> {
        let (ty, op) = (self.ty()?, self.operator(10..=16)?);
        let parameter = self.byte();
        if op <= LAST_PLAIN && parameter != 0 {
            return Err(Why::Parameter);
        }
        Ok(Call::Unary {
            ty,
            op,
            parameter,
            id: self.short(),
        })
    }

    fn binary(&mut self) -> Result<Call, Why> {
        Ok(Call::Binary {
            ty: self.ty()?,
            op: self.operator(20..=38)?,
            left: self.short(),
            right: self.short(),
        })
    }

    fn slice(&mut self) -> Call {
        Call::Slice {
            id: self.short(),
            offset: self.short(),
            width: self.byte(),
        }
    }

    fn concat(&mut self) -> Call {
        Call::Concat {
            high: self.short(),
            low: self.short(),
            low_width: self.byte(),
            width: self.byte(),
        }
    }

    fn unsigned_range(&mut self) -> Call {
        Call::UnsignedRange {
            id: self.short(),
            low: self.pattern(),
            high: self.pattern(),
        }
    }

    fn guard(&mut self) -> Result<Call, Why> {
        let (condition, expected) = (self.short(), self.byte());
        if expected > 1 {
            return Err(Why::Expected);
        }
        Ok(Call::AssumeGuard {
            condition,
            expected,
        })
    }
}

// The lengths that the body of a tag can have, but for retain. An input has two, by its flag.
pub fn lengths(tag: u8) -> Option<[usize; 2]> {
    let one = |length| Some([length; 2]);
    match tag {
        CONSTANT => one(18),
        INPUT => Some([PLAIN_INPUT, RANGED_INPUT]),
        EFFECT => one(10),
        UNARY | CONCAT => one(6),
        BINARY => one(7),
        SLICE => one(5),
        UNSIGNED_RANGE => one(34),
        GUARD => one(3),
        _ => None,
    }
}

fn read<'a>(framed: Framed<'a>) -> Result<Record<'a>, Why> {
    let Framed { tag, body } = framed;
    if tag == RETAIN {
        return Ok(Record::Retain(body));
    }
    let lengths = lengths(tag).ok_or(Why::Tag)?;
    if !lengths.contains(&body.len()) {
        return Err(Why::Length);
    }
    let mut fields = Fields(body);
    let call = match tag {
        CONSTANT => fields.constant()?,
        INPUT => fields.input()?,
        EFFECT => fields.effect()?,
        UNARY => fields.unary()?,
        BINARY => fields.binary()?,
        SLICE => fields.slice(),
        CONCAT => fields.concat(),
        UNSIGNED_RANGE => fields.unsigned_range(),
        _ => fields.guard()?,
    };
    Ok(Record::Call(call))
}

// What a record asks for, if all of it is as it has to be.
pub fn decode(framed: Framed<'_>) -> Result<Record<'_>, Bad> {
    let tag = framed.tag;
    read(framed).map_err(|why| Bad { tag, why })
}

// The first record of the input as what it asks for, and what comes after it.
pub fn next(input: &[u8]) -> Option<Result<(Record<'_>, &[u8]), Bad>> {
    let split = split(input)?;
    Some(split.and_then(|(framed, rest)| Ok((decode(framed)?, rest))))
}

// Fixed streams in the making: records by their fields, and the answers that they must have.
use crate::call::{Answer, Call};
use crate::encode::encode;
use crate::native::{Range, ScalarType};
use crate::record::next;
use crate::reference::Session;

// The operators of the fixed streams by their codes, beside those in the driver's plans.rs.
pub const BOOL_NOT: u64 = 10;
pub const LEADING_ZEROS: u64 = 15;
pub const TRAILING_ZEROS: u64 = 16;
pub const MUL: u64 = 22;
pub const ARITHMETIC_SHIFT_RIGHT: u64 = 28;
pub const LESS_SIGNED: u64 = 31;
pub const LESS_UNSIGNED: u64 = 32;
pub const DIVIDE_SIGNED: u64 = 35;
pub const REMAINDER_SIGNED: u64 = 36;

// A stream with a name, and whether a bad record ends it.
pub struct Case {
    pub name: String,
    pub bytes: Vec<u8>,
    pub is_bad: bool,
}

fn record(call: Call) -> Vec<u8> {
    encode(&call).expect("there are such records")
}

pub fn constant(ty: ScalarType, value: u128) -> Vec<u8> {
    let ty = ty.into();
    record(Call::Constant { ty, value })
}

pub fn input(number: u64, ty: ScalarType, range: Option<(i128, i128)>) -> Vec<u8> {
    let range = range.map(|(min, max)| Range { min, max });
    let ty = ty.into();
    record(Call::Input { number, ty, range })
}

pub fn effect(number: u64, ty: ScalarType) -> Vec<u8> {
    let ty = ty.into();
    record(Call::Effect { number, ty })
}

pub fn unary(ty: ScalarType, op: u64, parameter: u64, id: u64) -> Vec<u8> {
    let ty = ty.into();
    record(Call::Unary {
        ty,
        op,
        parameter,
        id,
    })
}

pub fn binary(ty: ScalarType, op: u64, left: u64, right: u64) -> Vec<u8> {
    let ty = ty.into();
    record(Call::Binary {
        ty,
        op,
        left,
        right,
    })
}

pub fn slice(id: u64, offset: u64, width: u64) -> Vec<u8> {
    record(Call::Slice { id, offset, width })
}

pub fn concat(high: u64, low: u64, low_width: u64, width: u64) -> Vec<u8> {
    record(Call::Concat {
        high,
        low,
        low_width,
        width,
    })
}

pub fn unsigned_range(id: u64, low: u128, high: u128) -> Vec<u8> {
    record(Call::UnsignedRange { id, low, high })
}

pub fn guard(condition: u64, expected: u64) -> Vec<u8> {
    record(Call::AssumeGuard {
        condition,
        expected,
    })
}

pub struct Built {
    session: Session,
    bytes: Vec<u8>,
}

impl Built {
    pub fn new() -> Self {
        Built {
            session: Session::new(),
            bytes: vec![],
        }
    }

    pub fn put(&mut self, record: &[u8]) -> Answer {
        self.bytes.extend(record);
        match next(record) {
            Some(Ok((record, []))) => self.session.answer(&record),
            _ => panic!("one record that is not bad: {record:?}"),
        }
    }

    // A record that an id must answer.
    pub fn id(&mut self, record: &[u8]) -> u64 {
        match self.put(record) {
            Answer::Id(id) => id,
            other => panic!("{record:?} is answered {other:?}"),
        }
    }

    pub fn expect(&mut self, record: &[u8], answer: Answer) {
        assert_eq!(self.put(record), answer, "{record:?}");
    }

    pub fn refused(&mut self, record: &[u8], number: u64) {
        self.expect(record, Answer::Refused(number));
    }

    pub fn count(&self) -> usize {
        self.session.count()
    }

    // New leaves up to this count.
    pub fn fill(&mut self, count: usize) {
        for number in self.count()..count {
            self.id(&effect(1000 + number as u64, ScalarType::Integer));
        }
    }

    // The stream without a bad record.
    pub fn named(self, name: impl Into<String>) -> Case {
        Case {
            name: name.into(),
            bytes: self.bytes,
            is_bad: false,
        }
    }

    // The stream with these bytes after it, where a bad record ends it.
    pub fn then_bad(self, name: impl Into<String>, bytes: &[u8]) -> Case {
        Case {
            name: name.into(),
            bytes: [&self.bytes[..], bytes].concat(),
            is_bad: true,
        }
    }
}

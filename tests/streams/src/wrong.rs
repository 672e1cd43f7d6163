// The wrong values of every field that makes a record bad, as bytes put into a body that is right.
use crate::record::{BINARY, CONSTANT, EFFECT, GUARD, INPUT, UNARY};

// A byte to be put at a place of the body.
pub type Poke = (usize, u8);

// What is wrong, and the bytes for it.
pub struct Wrong {
    pub name: String,
    pub pokes: Vec<Poke>,
}

const TYPE_CODES: [u8; 2] = [3, 255];
const BOOL: u8 = 0;
const INTEGER: u8 = 2;
const TYPE_WIDTHS: [u8; 2] = [1, 255];
const UNARY_CODES: [u8; 6] = [0, 9, 17, 19, 20, 39];
const BINARY_CODES: [u8; 6] = [0, 9, 16, 17, 19, 39];
const PLAIN: [(u8, &str); 3] = [(10, "BoolNot"), (11, "BitNot"), (12, "Negate")];
const PARAMETERS: [u8; 2] = [1, 255];
const FLAGS: [u8; 2] = [2, 255];

pub const TAGS: [u8; 3] = [0, 11, 255];

fn wrong(name: String, pokes: &[Poke]) -> Wrong {
    Wrong {
        name,
        pokes: pokes.to_vec(),
    }
}

// A type at that place.
fn types(at: usize) -> Vec<Wrong> {
    let codes = TYPE_CODES.map(|code| wrong(format!("type code {code}"), &[(at, code)]));
    let mut all: Vec<Wrong> = codes.into();
    for (name, code) in [("Bool", BOOL), ("Integer", INTEGER)] {
        all.extend(TYPE_WIDTHS.map(|width| {
            wrong(
                format!("{name} with width {width}"),
                &[(at, code), (at + 1, width)],
            )
        }));
    }
    all
}

fn operators(codes: [u8; 6]) -> impl Iterator<Item = Wrong> {
    codes
        .into_iter()
        .map(|code| wrong(format!("operator code {code}"), &[(2, code)]))
}

fn parameters() -> impl Iterator<Item = Wrong> {
    PLAIN.into_iter().flat_map(|(code, name)| {
        PARAMETERS.map(|parameter| {
            wrong(
                format!("{name} with parameter {parameter}"),
                &[(2, code), (3, parameter)],
            )
        })
    })
}

fn flags(name: &str, at: usize) -> Vec<Wrong> {
    FLAGS
        .map(|flag| wrong(format!("{name} {flag}"), &[(at, flag)]))
        .into()
}

// The wrong fields that records of a tag can have.
pub fn wrongs(tag: u8) -> Vec<Wrong> {
    match tag {
        CONSTANT => types(0),
        INPUT => types(8).into_iter().chain(flags("flag", 10)).collect(),
        EFFECT => types(8),
        UNARY => types(0)
            .into_iter()
            .chain(operators(UNARY_CODES))
            .chain(parameters())
            .collect(),
        BINARY => types(0)
            .into_iter()
            .chain(operators(BINARY_CODES))
            .collect(),
        GUARD => flags("expected", 2),
        _ => vec![],
    }
}

// Fixed streams that a bad record ends: every field's wrong values, wrong tags and lengths, and the end of input inside
// a record. Each has right records before the bad one, and most have one after it.
use crate::built::{
    Built, Case, binary, concat, constant, effect, guard, input, slice, unary, unsigned_range,
};
use crate::encode::{framed, retain};
use crate::native::ScalarType;
use crate::record::{HEADER, PLAIN_INPUT, RANGED_INPUT};
use crate::wrong::{TAGS, wrongs};
use ScalarType::{Bits, Bool, Integer};

const NODES: usize = 6;

// A graph with nodes of each type: 0 Bits(8), 1 Bool, 2 Integer, 3 a constant, 4 Bits(16), 5 a condition.
fn base() -> Built {
    let mut built = Built::new();
    let nodes = [
        input(0, Bits(8), None),
        input(1, Bool, None),
        input(2, Integer, Some((-5, 5))),
        constant(Bits(8), 5),
        effect(3, Bits(16)),
        binary(Bool, 32, 0, 3),
    ];
    for (id, node) in nodes.iter().enumerate() {
        assert_eq!(built.id(node), id as u64);
    }
    assert_eq!(built.count(), NODES);
    built
}

// A right record of each tag on that graph, inputs without and with a range.
fn rights() -> [(&'static str, Vec<u8>); 11] {
    [
        ("constant", constant(Bits(8), 7)),
        ("input", input(9, Bits(8), None)),
        ("input with a range", input(9, Bits(8), Some((1, 9)))),
        ("effect", effect(9, Integer)),
        ("unary", unary(Bits(8), 11, 0, 0)),
        ("binary", binary(Bits(8), 20, 0, 3)),
        ("slice", slice(0, 2, 4)),
        ("concat", concat(0, 4, 16, 24)),
        ("unsigned range", unsigned_range(0, 1, 9)),
        ("guard", guard(5, 1)),
        ("retain", retain(&[1; NODES])),
    ]
}

// Those with fields of fixed lengths: all but retain.
fn fixed() -> Vec<(&'static str, Vec<u8>)> {
    rights().into_iter().take(10).collect()
}

// What must not be answered, because it comes after a bad record.
fn after() -> Vec<u8> {
    effect(77, Integer)
}

// Every right record, one after another.
pub fn every_tag() -> Case {
    let mut built = base();
    for (_, record) in rights().iter().take(10) {
        built.put(record);
    }
    let keep = vec![1; built.count()];
    built.put(&retain(&keep));
    built.named("every tag")
}

fn bad_fields() -> Vec<Case> {
    let mut cases = vec![];
    for (name, right) in rights() {
        for wrong in wrongs(right[0]) {
            let mut record = right.clone();
            for (at, byte) in wrong.pokes {
                record[HEADER + at] = byte;
            }
            let name = format!("{name}: {}", wrong.name);
            cases.push(base().then_bad(name, &[record, after()].concat()));
        }
    }
    cases
}

fn bad_tags() -> Vec<Case> {
    let mut cases = vec![];
    for tag in TAGS {
        for body in [&[][..], &constant(Bits(8), 7)[HEADER..]] {
            let name = format!("tag {tag}, {} bytes", body.len());
            let record = framed(tag, body);
            cases.push(base().then_bad(name, &[record, after()].concat()));
        }
    }
    cases
}

// The end of input inside each header and each body.
fn ends() -> Vec<Case> {
    let mut cases = vec![];
    for (name, record) in rights() {
        for length in [1, 2, HEADER, record.len() - 1] {
            let name = format!("{name}: ends after {length} of {} bytes", record.len());
            cases.push(base().then_bad(name, &record[..length]));
        }
    }
    cases.push(Built::new().then_bad("one byte of a header alone", &[1]));
    cases.push(Built::new().then_bad("a wrong tag alone", &[0]));
    cases.push(Built::new().then_bad("a retain longer than the input", &[10, 255, 255, 1]));
    cases
}

// The record with another number in its length field.
fn with_length(record: &[u8], length: usize) -> Vec<u8> {
    let field = (length as u16).to_le_bytes();
    [&record[..1], &field, &record[HEADER..]].concat()
}

// Lengths one short and one long, with the bytes to match and without.
fn lengths() -> Vec<Case> {
    let mut cases = vec![];
    for (name, record) in fixed() {
        let (tag, body) = (record[0], &record[HEADER..]);
        let length = body.len();
        let long = [body, &[0]].concat();
        let all = [
            ("one byte short", framed(tag, &body[..length - 1])),
            ("one byte long", framed(tag, &long)),
            ("length one short", with_length(&record, length - 1)),
            ("length one long", with_length(&record, length + 1)),
            ("no body", framed(tag, &[])),
            ("length reversed", with_length(&record, length << 8)),
        ];
        for (what, record) in all {
            let name = format!("{name}: {what}");
            cases.push(base().then_bad(name, &[record, after()].concat()));
        }
        let name = format!("{name}: length one long at the end of input");
        cases.push(base().then_bad(name, &with_length(&record, length + 1)));
    }
    cases
}

// An input whose flag and length do not fit each other.
fn flags() -> Vec<Case> {
    let mut plain = input(9, Bits(8), None);
    let mut ranged = input(9, Bits(8), Some((1, 9)));
    plain[HEADER + PLAIN_INPUT - 1] = 1;
    ranged[HEADER + PLAIN_INPUT - 1] = 0;
    assert_eq!(ranged.len(), HEADER + RANGED_INPUT);
    vec![
        base().then_bad("input: flag 1 without numbers", &[plain, after()].concat()),
        base().then_bad(
            "input: flag 0 with two numbers",
            &[ranged, after()].concat(),
        ),
    ]
}

// What makes a record bad comes before every question.
fn bad_first() -> Vec<Case> {
    let mut far_guard = guard(65535, 1);
    far_guard[HEADER + 2] = 2;
    let mut far_unary = unary(Bool, 10, 0, 65535);
    far_unary[HEADER + 3] = 1;
    let mut far_binary = binary(Bool, 29, 0, 65535);
    far_binary[HEADER + 1] = 3;
    let mut wide_unary = unary(Bits(8), 13, 129, 0);
    wide_unary[HEADER] = 3;
    let mut wide_bool = constant(Bool, 2);
    wide_bool[HEADER + 1] = 129;
    let mut empty_range = input(9, Bits(8), Some((9, 1)));
    empty_range[HEADER + 10] = 2;
    let records = [
        ("expected 2 on no node", far_guard),
        ("BoolNot with parameter 1 of no node", far_unary),
        ("Bool with width 3 and no node", far_binary),
        ("type code 3 and width 129", wide_unary),
        ("Bool with width 129 and value 2", wide_bool),
        ("flag 2 and an empty range", empty_range),
    ];
    records
        .into_iter()
        .map(|(name, record)| base().then_bad(name, &[record, after()].concat()))
        .collect()
}

// Right records on both sides of the bad one.
fn in_the_middle() -> Case {
    let mut built = base();
    built.id(&constant(Bits(8), 9));
    let rest: Vec<u8> = rights()
        .iter()
        .flat_map(|(_, record)| record.clone())
        .collect();
    let bad = framed(11, &[]);
    built.then_bad(
        "a bad record in the middle",
        &[bad.clone(), rest, bad].concat(),
    )
}

pub fn bad_cases() -> Vec<Case> {
    let groups = [
        bad_fields(),
        bad_tags(),
        ends(),
        lengths(),
        flags(),
        bad_first(),
    ];
    let mut cases: Vec<Case> = groups.into_iter().flatten().collect();
    cases.push(in_the_middle());
    cases
}

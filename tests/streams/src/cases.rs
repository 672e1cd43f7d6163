// Fixed streams that no bad record ends: what each answer hangs on, at its limits. Each must be answered as it says.
use crate::bad_cases::{bad_cases, every_tag};
use crate::built::{
    BOOL_NOT, Built, Case, LEADING_ZEROS, LESS_UNSIGNED, TRAILING_ZEROS, binary, concat, constant,
    effect, guard, input, slice, unary, unsigned_range,
};
use crate::call::Answer;
use crate::encode::retain;
use crate::native::ScalarType;
use crate::plans::{ADD, EQUAL, SIGN_EXTEND, TRUNCATE};
use crate::value_cases::value_cases;
use crate::words::LIMIT;
use ScalarType::{Bits, Bool, Integer};

const WIDTHS: [u64; 3] = [128, 129, 255];
const FAR_IDS: [u64; 3] = [511, 512, 65535];

// The list that docs/RECORDS.md shows, with its answers.
fn listing() -> Case {
    let mut built = Built::new();
    let ty = Bits(8);
    let records = [
        (input(0, ty, None), Answer::Id(0)),
        (constant(ty, 5), Answer::Id(1)),
        (binary(ty, ADD, 0, 1), Answer::Id(2)),
        (constant(ty, 7), Answer::Id(3)),
        (binary(Bool, EQUAL, 2, 3), Answer::Id(5)),
        (guard(5, 1), Answer::Done),
        (binary(ty, ADD, 0, 1), Answer::Id(7)),
        (binary(Bool, EQUAL, 7, 3), Answer::Id(8)),
    ];
    for (record, answer) in records {
        built.expect(&record, answer);
    }
    assert_eq!(built.count(), 9);
    built.named("the listing")
}

fn empty() -> Case {
    Built::new().named("empty input")
}

// Every place where a width stands, with that width.
fn widths(width: u64) -> Case {
    let mut built = Built::new();
    let ty = Bits(width as u16);
    built.id(&effect(0, Bits(64)));
    built.id(&effect(1, Bits(64)));
    built.id(&effect(2, Bits(128)));
    let records = [
        constant(ty, 1),
        input(0, ty, None),
        input(0, ty, Some((0, 9))),
        effect(0, ty),
        unary(ty, TRUNCATE, width, 0),
        unary(Integer, SIGN_EXTEND, width, 2),
        unary(Integer, LEADING_ZEROS, width, 2),
        unary(Integer, TRAILING_ZEROS, width, 2),
        unary(ty, SIGN_EXTEND, 64, 0),
        unary(ty, LEADING_ZEROS, 64, 0),
        binary(ty, ADD, 2, 2),
        slice(0, 1, width),
        concat(0, 1, 64, width),
    ];
    for record in records {
        let answer = built.put(&record);
        assert_eq!(answer == Answer::Refused(2), width > 128, "{record:?}");
    }
    built.refused(&concat(0, 1, width, 64), if width > 128 { 2 } else { 4 });
    built.named(format!("width {width} in every place"))
}

// Every place where an id stands, with one that is far above the count.
fn ids(id: u64) -> Case {
    let mut built = Built::new();
    built.id(&effect(0, Bits(8)));
    let records = [
        unary(Bool, BOOL_NOT, 0, id),
        unary(Bits(8), TRUNCATE, 8, id),
        binary(Bits(8), ADD, id, 0),
        binary(Bits(8), ADD, 0, id),
        slice(id, 0, 8),
        concat(id, 0, 8, 16),
        concat(0, id, 8, 16),
        unsigned_range(id, 0, 1),
        guard(id, 1),
    ];
    for record in records {
        built.refused(&record, 3);
    }
    built.id(&slice(0, 0, 8));
    built.named(format!("id {id} in every place"))
}

fn offsets() -> Case {
    let mut built = Built::new();
    let value = built.id(&effect(0, Integer));
    let bits = built.id(&effect(1, Bits(128)));
    for offset in [0, 1, 127, 128, 129, 255, 256, 32768, 65535] {
        built.id(&slice(value, offset, 8));
        built.id(&slice(bits, offset, 128));
        built.refused(&slice(bits, offset, 129), 2);
    }
    built.named("offsets up to 65,535")
}

// A 512th node is taken, a 513th refused 7. Old nodes are found still, and after a retain there is room again.
fn full() -> Case {
    let mut built = Built::new();
    let bits = built.id(&effect(0, Bits(8)));
    built.fill(LIMIT - 1);
    built.refused(&unsigned_range(bits, 1, 5), 7);
    built.expect(&constant(Bits(8), 1), Answer::Id(511));
    built.refused(&effect(0, Bool), 7);
    built.refused(&constant(Bits(8), 2), 7);
    built.expect(&effect(0, Bits(8)), Answer::Id(0));
    built.expect(&slice(511, 0, 8), Answer::Id(511));
    built.refused(&slice(512, 0, 8), 3);
    built.refused(&slice(bits, 3, 2), 7);
    let mut keep = vec![0; LIMIT];
    keep[511] = 1;
    built.expect(&retain(&keep), Answer::Kept(1));
    built.expect(&effect(0, Bool), Answer::Id(1));
    built.named("512 nodes, and one more")
}

// A guard that would narrow, when there is no room.
fn full_guard() -> Case {
    let mut built = Built::new();
    let value = built.id(&input(0, Bits(8), None));
    let limit = built.id(&constant(Bits(8), 10));
    let condition = built.id(&binary(Bool, LESS_UNSIGNED, value, limit));
    built.fill(LIMIT);
    built.refused(&guard(condition, 1), 7);
    built.expect(&input(0, Bits(8), None), Answer::Id(value));
    let keep: Vec<u8> = (0..LIMIT).map(|id| (id < 511).into()).collect();
    built.expect(&retain(&keep), Answer::Kept(511));
    built.expect(&guard(condition, 1), Answer::Done);
    built.expect(&input(0, Bits(8), None), Answer::Id(511));
    built.named("a guard without room, and with room")
}

// Sums of Bits(16) by their places in a list that two leaves begin. The last.
fn sums(built: &mut Built, leaves: [Vec<u8>; 2], sums: &[(usize, usize)]) -> u64 {
    let mut ids: Vec<u64> = leaves.iter().map(|leaf| built.id(leaf)).collect();
    for (left, right) in sums {
        ids.push(built.id(&binary(Bits(16), ADD, ids[*left], ids[*right])));
    }
    ids[ids.len() - 1]
}

// A slice that takes all of the 1,024 units.
fn all_units() -> Case {
    let mut built = Built::new();
    let leaves = [effect(0, Bits(16)), input(1, Bits(16), Some((0, 3)))];
    let places = [
        (1, 0),
        (2, 2),
        (3, 3),
        (4, 4),
        (5, 5),
        (6, 4),
        (7, 0),
        (8, 6),
        (9, 9),
        (10, 8),
    ];
    let last = sums(&mut built, leaves, &places);
    built.expect(&slice(last, 0, 8), Answer::Id(23));
    built.named("1,024 units")
}

// A slice that would take 1,025.
fn one_unit_more() -> Case {
    let mut built = Built::new();
    let leaves = [constant(Bits(16), 3), input(1, Bits(16), Some((0, 3)))];
    let places = [
        (1, 1),
        (2, 0),
        (3, 3),
        (4, 4),
        (5, 5),
        (6, 6),
        (7, 7),
        (8, 8),
        (9, 0),
    ];
    let last = sums(&mut built, leaves, &places);
    built.refused(&slice(last, 0, 8), 8);
    built.named("1,025 units")
}

// Seven doublings pass, eight are refused 8, and what comes after is answered.
fn doublings() -> Case {
    let mut built = Built::new();
    let mut value = built.id(&effect(0, Bits(16)));
    for _ in 0..7 {
        value = built.id(&binary(Bits(16), ADD, value, value));
    }
    let eight = built.id(&binary(Bits(16), ADD, value, value));
    built.refused(&slice(eight, 0, 8), 8);
    built.refused(&unary(Bits(8), TRUNCATE, 8, eight), 8);
    built.expect(&unary(Bits(8), TRUNCATE, 8, value), Answer::Id(16));
    built.expect(&slice(value, 0, 8), Answer::Id(16));
    built.refused(&slice(eight, 0, 7), 8);
    built.id(&slice(eight, 1, 7));
    built.named("eight doublings and a slice")
}

// With room for eight nodes eight doublings are refused 8 before 7, with room for seven 7 before 8.
fn both_limits() -> Case {
    let mut built = Built::new();
    let mut value = built.id(&effect(0, Bits(16)));
    for _ in 0..8 {
        value = built.id(&binary(Bits(16), ADD, value, value));
    }
    built.fill(LIMIT - 8);
    built.refused(&slice(value, 0, 8), 8);
    built.fill(LIMIT - 7);
    built.refused(&slice(value, 0, 8), 7);
    built.named("7 and 8, the one met first")
}

// Guards narrow, so that comparisons are decided; after a retain they are open again.
fn guards() -> Case {
    let mut built = Built::new();
    let ty = Bits(8);
    let value = built.id(&input(0, ty, None));
    let [ten, twenty] = [10, 20].map(|value| built.id(&constant(ty, value)));
    let yes = built.id(&constant(Bool, 1));
    let no = built.id(&constant(Bool, 0));
    let condition = built.id(&binary(Bool, LESS_UNSIGNED, value, ten));
    let not = built.id(&unary(Bool, BOOL_NOT, 0, condition));
    let open = built.id(&binary(Bool, LESS_UNSIGNED, value, twenty));
    assert!(open != yes && open != no);
    built.expect(&guard(not, 0), Answer::Done);
    built.expect(&binary(Bool, LESS_UNSIGNED, value, twenty), Answer::Id(yes));
    built.expect(&binary(Bool, EQUAL, value, twenty), Answer::Id(no));
    built.expect(&guard(condition, 1), Answer::Done);
    built.expect(&guard(condition, 0), Answer::Done);
    built.refused(&guard(value, 1), 4);
    let keep = vec![1; built.count()];
    let count = built.count() as u64;
    built.expect(&retain(&keep), Answer::Kept(count));
    built.expect(
        &binary(Bool, LESS_UNSIGNED, value, twenty),
        Answer::Id(open),
    );
    built.expect(&guard(condition, 0), Answer::Done);
    built.expect(&binary(Bool, LESS_UNSIGNED, value, ten), Answer::Id(no));
    built.named("guards that narrow")
}

// Two nodes, of which the second has the first as its operand.
fn pair() -> Built {
    let mut built = Built::new();
    let bool = built.id(&effect(0, Bool));
    built.id(&unary(Bool, BOOL_NOT, 0, bool));
    built
}

fn retains() -> Vec<Case> {
    let mut wrong = pair();
    for keep in [
        &[][..],
        &[1],
        &[1, 1, 1],
        &[1, 2],
        &[255, 1],
        &[2, 0],
        &[0, 1],
        &[1; 600],
    ] {
        wrong.refused(&retain(keep), 6);
    }
    wrong.expect(&effect(0, Bool), Answer::Id(0));
    wrong.expect(&retain(&[1, 1]), Answer::Kept(2));
    wrong.expect(&retain(&[1, 0]), Answer::Kept(1));
    wrong.refused(&retain(&[1, 0]), 6);
    wrong.expect(&retain(&[0]), Answer::Kept(0));
    wrong.expect(&retain(&[]), Answer::Kept(0));
    let mut none = Built::new();
    none.expect(&retain(&[]), Answer::Kept(0));
    none.refused(&retain(&[0]), 6);
    none.expect(&effect(0, Bool), Answer::Id(0));
    vec![
        wrong.named("retains that are refused, and others"),
        none.named("a retain of no node"),
    ]
}

// Every refusal but 1, 7 and 8, each followed by a record that is answered.
fn refusals() -> Case {
    let mut built = pair();
    let records = [
        (constant(Bits(129), 1), 2),
        (slice(2, 0, 8), 3),
        (unary(Bits(8), 11, 0, 0), 4),
        (unary(Bits(8), TRUNCATE, 7, 0), 4),
        (binary(Bool, ADD, 0, 0), 4),
        (constant(Bool, 2), 5),
        (constant(Bool, u128::MAX), 5),
        (input(0, Bits(8), Some((0, 256))), 5),
        (input(0, Bits(8), Some((-1, 3))), 5),
        (input(0, Integer, Some((3, 2))), 5),
        (input(0, Bits(128), Some((-1, 3))), 5),
        (retain(&[0, 1]), 6),
        (slice(2, 0, 129), 2),
        (binary(Bits(129), ADD, 2, 0), 2),
        (unary(Bool, TRUNCATE, 8, 2), 3),
    ];
    for (record, number) in records {
        built.refused(&record, number);
        built.expect(&effect(0, Bool), Answer::Id(0));
    }
    built.id(&input(0, Integer, Some((i128::MIN, i128::MAX))));
    built.named("records after refusals")
}

// All fixed streams.
pub fn cases() -> Vec<Case> {
    let mut cases = vec![listing(), empty(), every_tag()];
    cases.extend(bad_cases());
    cases.extend(WIDTHS.map(widths));
    cases.extend(FAR_IDS.map(ids));
    cases.extend([
        offsets(),
        full(),
        full_guard(),
        all_units(),
        one_unit_more(),
        doublings(),
        both_limits(),
        guards(),
    ]);
    cases.extend(retains());
    cases.push(refusals());
    cases.extend(value_cases());
    cases
}

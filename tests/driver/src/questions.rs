// Questions 2 to 4 for the builders and the guards: every operator with every choice of types, and the limits of
// widths and ids.
use crate::call::{Call, GUARD_WORDS, TypeCode};
use crate::edges::{Step, input};
use crate::native::ScalarType::{self, Bits, Bool, Integer};
use crate::words::REGION;

// The types of the first nodes.
const TYPES: [ScalarType; 8] = [
    Bool,
    Integer,
    Bits(0),
    Bits(1),
    Bits(8),
    Bits(128),
    Bits(64),
    Bits(65),
];
// The types that the table is run through with.
const TABLE: usize = 6;

// An id for each of the first types, and the result types of a table's row.
fn table() -> impl Iterator<Item = (u64, ScalarType)> {
    TYPES[..TABLE]
        .iter()
        .enumerate()
        .map(|(id, ty)| (id as u64, *ty))
}

fn unaries() -> impl Iterator<Item = Call> {
    (10..=16).flat_map(|op| {
        let parameters: &[u64] = if op < 13 { &[0] } else { &[0, 1, 8, 128] };
        parameters.iter().flat_map(move |parameter| {
            table().flat_map(move |(id, _)| {
                table().map(move |(_, ty)| Call::Unary {
                    ty: ty.into(),
                    op,
                    parameter: *parameter,
                    id,
                })
            })
        })
    })
}

fn binaries() -> impl Iterator<Item = Call> {
    (20..=38).flat_map(|op| {
        table().flat_map(move |(left, _)| {
            table().flat_map(move |(right, _)| {
                table().map(move |(_, ty)| Call::Binary {
                    ty: ty.into(),
                    op,
                    left,
                    right,
                })
            })
        })
    })
}

fn slices() -> impl Iterator<Item = Call> {
    table().flat_map(|(id, _)| {
        [0, 1, 7, 8, 127, 128, 129, 65535]
            .into_iter()
            .flat_map(move |offset| {
                [0, 1, 8, 127, 128, 129, 65535].map(|width| Call::Slice { id, offset, width })
            })
    })
}

fn concats() -> impl Iterator<Item = Call> {
    table().flat_map(|(high, _)| {
        table().flat_map(move |(low, _)| {
            [0, 1, 8, 128, 129].into_iter().flat_map(move |low_width| {
                [0, 1, 2, 8, 9, 16, 128, 129].map(|width| Call::Concat {
                    high,
                    low,
                    low_width,
                    width,
                })
            })
        })
    })
}

fn ranges() -> impl Iterator<Item = Call> {
    let top = u128::from(u64::MAX);
    let pairs = [
        (0, 0),
        (0, 1),
        (1, 0),
        (3, 200),
        (0, 255),
        (0, 256),
        (255, 255),
        (256, 256),
        (0, top),
        (0, top + 1),
        (top, top),
        (u128::MAX, u128::MAX),
    ];
    (0..TYPES.len() as u64)
        .flat_map(move |id| pairs.map(|(low, high)| Call::UnsignedRange { id, low, high }))
}

// Each node as a condition, with each way to expect and each length of the lent words.
fn guards() -> impl Iterator<Item = Call> {
    let conditions = (0..TYPES.len() as u64 + 6).chain(IDS);
    conditions.flat_map(|condition| {
        [0, 1, 2, 255, 1 << 32, u64::MAX]
            .into_iter()
            .flat_map(move |expected| {
                let assume = Call::AssumeGuard {
                    condition,
                    expected,
                };
                let guards = [GUARD_WORDS, 0, 1, 4, 6].map(|room| Call::Guard {
                    condition,
                    expected,
                    room,
                });
                guards.into_iter().chain([assume])
            })
    })
}

// A comparison of each two nodes of one type and two conditions of it, for the guards.
fn conditions() -> impl Iterator<Item = Call> {
    let compared = |op, left, right| Call::Binary {
        ty: Bool.into(),
        op,
        left,
        right,
    };
    let not = |id| Call::Unary {
        ty: Bool.into(),
        op: 10,
        parameter: 0,
        id,
    };
    let first = TYPES.len() as u64;
    // One more Bits(8) and one more Integer with a range, to compare with the first.
    [
        input(1, Bits(8), Some((3, 200))),
        input(1, Integer, Some((-5, 9))),
        input(2, Integer, Some((0, 20))),
        compared(32, 4, first),
        compared(31, first + 1, first + 2),
        not(first + 3),
    ]
    .into_iter()
}

// Every operator's code about those of the comparisons, with values whose halves are at their limits.
fn matches() -> impl Iterator<Item = Call> {
    let low = u128::from(u64::MAX);
    let values = [0, 1, low, low + 1, 1 << 127, low << 64, u128::MAX];
    let pairs = values
        .into_iter()
        .flat_map(move |left| values.into_iter().map(move |right| [left, right]));
    let pairs: Vec<[u128; 2]> = pairs.collect();
    let flags = [
        (0, 0),
        (0, 1),
        (1, 0),
        (1, 1),
        (2, 0),
        (0, 2),
        (1, u64::MAX),
    ];
    let codes = (28..=35).chain([0, 10, 20, 38, 39, u64::MAX]);
    codes.flat_map(move |op| {
        let pairs = pairs.clone();
        flags.into_iter().flat_map(move |(expected, host64)| {
            let is_compared = (29..=34).contains(&op) && expected < 2 && host64 < 2;
            let few = if is_compared { pairs.len() } else { 2 };
            let pairs: Vec<_> = pairs[..few].to_vec();
            pairs.into_iter().map(move |[left, right]| Call::Matches {
                op,
                expected,
                host64,
                left,
                right,
            })
        })
    })
}

// Ids at the count and past it, together with widths and types that fail too.
const IDS: [u64; 6] = [0, 4, 511, 512, 1 << 32, u64::MAX];

fn orders_of_operators() -> impl Iterator<Item = Call> {
    let wide = TypeCode {
        code: 1,
        width: 129,
    };
    [Bits(8).into(), wide, Bool.into()]
        .into_iter()
        .flat_map(|ty| {
            IDS.into_iter().flat_map(move |id| {
                let binaries = IDS.map(|right| Call::Binary {
                    ty,
                    op: 20,
                    left: id,
                    right,
                });
                let operators = [(11, 0), (13, 8), (13, 129), (14, 8), (14, 65535), (16, 128)];
                let unaries = operators.map(|(op, parameter)| Call::Unary {
                    ty,
                    op,
                    parameter,
                    id,
                });
                binaries.into_iter().chain(unaries)
            })
        })
}

fn orders_of_parts() -> impl Iterator<Item = Call> {
    IDS.into_iter().flat_map(|id| {
        let widths = [(8, 16), (129, 16), (8, 129), (16, 8), (65535, 65535)];
        let concats = widths.into_iter().flat_map(move |(low_width, width)| {
            [(id, 4), (4, id)].map(|(high, low)| Call::Concat {
                high,
                low,
                low_width,
                width,
            })
        });
        let slices = [128, 129].map(|width| Call::Slice {
            id,
            offset: 65535,
            width,
        });
        let range = Call::UnsignedRange {
            id,
            low: 0,
            high: 1,
        };
        concats.chain(slices).chain([range])
    })
}

// A leaf of each type.
fn leaves() -> impl Iterator<Item = Call> {
    TYPES.iter().map(|ty| input(0, *ty, None))
}

// The calls that grow a graph with leaves and conditions.
pub fn graph() -> impl Iterator<Item = Call> {
    leaves().chain(conditions())
}

pub fn steps() -> Vec<Step> {
    let mut steps = vec![];
    let mut put = |calls: &mut dyn Iterator<Item = Call>| {
        steps.push(Step::Region(vec![0; REGION]));
        steps.extend(leaves().chain(calls).map(|call| Step::Call(REGION, call)));
    };
    put(&mut unaries());
    put(&mut binaries());
    put(&mut slices());
    put(&mut concats());
    put(&mut ranges());
    put(&mut orders_of_operators().chain(orders_of_parts()));
    put(&mut conditions().chain(guards()));
    put(&mut matches());
    steps
}

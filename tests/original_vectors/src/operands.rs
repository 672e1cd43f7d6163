// What the original is asked on: limits, small operands, random ones.
use crate::native::{Range, ScalarType};
use crate::random::Random;

pub const WIDTHS: [u16; 9] = [0, 1, 7, 8, 63, 64, 65, 127, 128];

const PATTERNS: [u128; 8] = [
    0,
    1,
    1 << 63,
    (1 << 64) - 1,
    1 << 64,
    (1 << 127) - 1,
    1 << 127,
    u128::MAX,
];

// The ends at which a sum, a product or a quotient leaves 128 bits.
pub const CORNERS: [i128; 4] = [i128::MIN, -1, 1, i128::MAX];

// Amounts at which a shifted 1 leaves 127 bits, and a shifted number is 0.
pub const SHIFTS: [i128; 6] = [0, 1, 125, 126, 127, 128];

// Where the ends from 0 up begin.
const ZERO: usize = 6;

const ENDS: [i128; 12] = [
    i128::MIN,
    i128::MIN + 1,
    -(1 << 64),
    -(1 << 63),
    -2,
    -1,
    0,
    1,
    1 << 63,
    1 << 64,
    i128::MAX - 1,
    i128::MAX,
];

// The width of a type's values.
pub fn width_of(ty: ScalarType) -> u16 {
    match ty {
        ScalarType::Bool => 1,
        ScalarType::Bits(width) => width,
        ScalarType::Integer => 128,
    }
}

// Bool, Bits at each width, Integer.
pub fn types() -> Vec<ScalarType> {
    let bits = WIDTHS.map(ScalarType::Bits);
    let others = [ScalarType::Bool, ScalarType::Integer];
    bits.into_iter().chain(others).collect()
}

fn sorted(mut patterns: Vec<u128>) -> Vec<u128> {
    patterns.sort_unstable();
    patterns.dedup();
    patterns
}

// The limits of a width and of 128 bits.
pub fn limits(width: u16) -> Vec<u128> {
    let mut patterns = PATTERNS.to_vec();
    if width > 0 {
        let half = 1 << (width - 1);
        patterns.extend([half - 1, half]);
    }
    if width < 128 {
        let whole = 1 << width;
        patterns.extend([whole - 1, whole]);
    }
    sorted(patterns)
}

// Shifts' amounts: around the width, and where a count is cut to 32 or 64 bits.
pub fn amounts(width: u16) -> Vec<u128> {
    let width = u128::from(width);
    sorted(vec![
        0,
        1,
        width.saturating_sub(1),
        width,
        width + 1,
        127,
        128,
        129,
        (1 << 32) - 1,
        1 << 32,
        (1 << 32) + 1,
        1 << 64,
        (1 << 64) + 1,
        1 << 127,
        u128::MAX,
    ])
}

// The range between two ends.
pub fn between(a: i128, b: i128) -> Range {
    Range {
        min: a.min(b),
        max: a.max(b),
    }
}

// The ranges between two of the ends, which ascend.
pub fn ranges(ends: &[i128]) -> Vec<Range> {
    let places = ends.iter().enumerate();
    places
        .flat_map(|(place, min)| {
            let others = ends[place..].iter();
            others.map(|max| between(*min, *max))
        })
        .collect()
}

// The ranges with ends from there to 3.
pub fn small_ranges(least: i128) -> Vec<Range> {
    ranges(&(least..=3).collect::<Vec<_>>())
}

pub fn pick<T: Copy>(random: &mut Random, from: &[T]) -> T {
    from[random.next() as usize % from.len()]
}

// Of the ranges below, half lie from 0 up.
pub fn limit_range(random: &mut Random) -> Range {
    let ends = match random.next() % 2 {
        0 => &ENDS[..],
        _ => &ENDS[ZERO..],
    };
    between(pick(random, ends), pick(random, ends))
}

pub fn random_range(random: &mut Random) -> Range {
    let (a, b) = (random.operand(), random.operand());
    let above = random.next() % 2;
    between((a >> above) as i128, (b >> above) as i128)
}

// A range of numbers from 0 up: half at the limits of a width, half anywhere below them.
pub fn bits_range(random: &mut Random, width: u16) -> Range {
    let below = width.min(127);
    if random.next() % 2 == 0 {
        let ends = signed(limits(width));
        between(pick(random, &ends), pick(random, &ends))
    } else {
        between(random.below(below) as i128, random.below(below) as i128)
    }
}

// A range of amounts: half at the limits, half up to the width.
pub fn amount_range(random: &mut Random, width: u16) -> Range {
    let ends = if random.next() % 2 == 0 {
        [signed(amounts(width)), vec![126]].concat()
    } else {
        (0..=width.into()).collect()
    };
    between(pick(random, &ends), pick(random, &ends))
}

// Those of the patterns that are no negative numbers.
fn signed(patterns: Vec<u128>) -> Vec<i128> {
    let ends = patterns.into_iter();
    ends.filter_map(|end| i128::try_from(end).ok()).collect()
}

// Regions in which the words of one node run through all their limits, for question 1.
use crate::words::{REGION, WORDS, start_of};

const COUNT: u64 = 4;
const NODE: usize = 2;

const FIELDS: [u64; 13] = [
    0,
    1,
    2,
    3,
    127,
    128,
    129,
    512,
    1 << 16,
    (1 << 16) + 1,
    1 << 32,
    1 << 63,
    u64::MAX,
];

const WIDTHS: [u64; 14] = [
    0,
    1,
    2,
    8,
    63,
    64,
    65,
    126,
    127,
    128,
    129,
    1 << 16,
    (1 << 16) + 8,
    u64::MAX,
];

const ENDS: [i128; 22] = [
    i128::MIN,
    -(1 << 64),
    -1,
    0,
    1,
    2,
    3,
    254,
    255,
    256,
    (1 << 63) - 1,
    1 << 63,
    (1 << 64) - 1,
    1 << 64,
    (1 << 65) - 1,
    1 << 65,
    (1 << 126) - 1,
    1 << 126,
    i128::MAX - 1,
    i128::MAX,
    -(1 << 63),
    i128::MIN + 1,
];

fn region(words: [u64; WORDS]) -> Vec<u64> {
    let mut region = vec![0; REGION];
    region[0] = COUNT;
    region[start_of(NODE)..][..WORDS].copy_from_slice(&words);
    region
}

// Every operation's code, and some past the last, with every limit in each of its fields.
fn operations() -> impl Iterator<Item = Vec<u64>> {
    let codes = (0..45).chain([1 << 16, 1 << 32, u64::MAX]);
    codes.flat_map(|code| {
        FIELDS.into_iter().flat_map(move |x| {
            FIELDS.into_iter().flat_map(move |y| {
                FIELDS
                    .into_iter()
                    .map(move |z| region([1, 8, 0, 0, 0, 0, 0, code, x, y, z, 0]))
            })
        })
    })
}

// Every type with every width, and every range.
fn ranges() -> impl Iterator<Item = Vec<u64>> {
    (0..4).flat_map(|code| {
        WIDTHS.into_iter().flat_map(move |width| {
            (0..3).flat_map(move |flag| {
                ENDS.into_iter().flat_map(move |min| {
                    ENDS.into_iter().map(move |max| {
                        let (a, b) = (min as u128, max as u128);
                        let [c, d] = [(a >> 64) as u64, (b >> 64) as u64];
                        let [a, b] = [a as u64, b as u64];
                        region([code, width, flag, a, c, b, d, 3, 0, 0, 0, 0])
                    })
                })
            })
        })
    })
}

// Every alias, with every count up to the one past the largest.
fn aliases() -> impl Iterator<Item = Vec<u64>> {
    let counts = (0..=5).chain([511, 512, 513, u64::MAX]);
    counts.flat_map(|count| {
        let aliases = (0..=6).chain([511, 512, 513, 514, 1 << 32, u64::MAX]);
        aliases.map(move |alias| {
            let mut region = region([0, 0, 0, 0, 0, 0, 0, 0, 0, 0, 0, alias]);
            region[0] = count;
            region
        })
    })
}

pub fn regions() -> impl Iterator<Item = Vec<u64>> {
    operations().chain(ranges()).chain(aliases())
}

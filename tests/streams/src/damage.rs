// Streams damaged in various ways. Most of them have a bad record then; some only ask for something else.
use crate::encode::framed;
use crate::random::Random;
use crate::record::{GUARD, HEADER, lengths};
use crate::stream::Stream;
use crate::wrong::{TAGS, wrongs};

#[derive(Clone, Copy, Debug, PartialEq, Eq, PartialOrd, Ord)]
pub enum Damage {
    Flipped,
    Cut,
    Spliced,
    Inserted,
    Deleted,
    Random,
    RandomBodies,
    Length,
    Field,
    Tag,
}

pub const DAMAGES: [(Damage, &str); 10] = [
    (Damage::Flipped, "flipped"),
    (Damage::Cut, "cut"),
    (Damage::Spliced, "spliced"),
    (Damage::Inserted, "inserted"),
    (Damage::Deleted, "deleted"),
    (Damage::Random, "random"),
    (Damage::RandomBodies, "random bodies"),
    (Damage::Length, "length"),
    (Damage::Field, "field"),
    (Damage::Tag, "tag"),
];

fn bytes(random: &mut Random, count: usize) -> Vec<u8> {
    (0..count).map(|_| random.next() as u8).collect()
}

// Anywhere, or after the tag, after half of the length or after the length of some record.
fn cut(random: &mut Random, stream: &Stream, changed: &mut Vec<u8>) {
    let end = match any_start(random, stream) {
        Some(start) if random.once_in(3) => start + 1 + random.below(HEADER),
        _ => random.below(changed.len() + 1),
    };
    changed.truncate(end);
}

fn flip(random: &mut Random, stream: &mut [u8]) {
    if stream.is_empty() {
        return;
    }
    for _ in 0..1 + random.below(4) {
        stream[random.below(stream.len())] ^= 1 << random.below(8);
    }
}

fn splice(random: &mut Random, first: &[u8], second: &[u8]) -> Vec<u8> {
    let (end, start) = (
        random.below(first.len() + 1),
        random.below(second.len() + 1),
    );
    [&first[..end], &second[start..]].concat()
}

fn insert(random: &mut Random, stream: &mut Vec<u8>) {
    let at = random.below(stream.len() + 1);
    let count = 1 + random.below(5);
    stream.splice(at..at, bytes(random, count));
}

fn delete(random: &mut Random, stream: &mut Vec<u8>) {
    let start = random.below(stream.len() + 1);
    let end = stream.len().min(start + 1 + random.below(5));
    stream.drain(start..end);
}

// Records with any tag, mostly a right one, and any body, mostly of a right length and with small numbers.
fn random_bodies(random: &mut Random) -> Vec<u8> {
    let mut stream = vec![];
    for _ in 0..random.below(40) {
        let tag = match random.below(20) {
            0 => random.next() as u8,
            _ => 1 + random.below(10) as u8,
        };
        let right = lengths(tag).map(|lengths| random.pick(&lengths));
        let length = right.filter(|_| !random.once_in(20));
        let length = length.unwrap_or_else(|| random.below(50));
        let limit = random.pick(&[2, 3, 40, 256]);
        let body: Vec<u8> = (0..length).map(|_| random.below(limit) as u8).collect();
        stream.extend(framed(tag, &body));
    }
    stream
}

// Where a record of the stream begins, if it has one.
fn any_start(random: &mut Random, stream: &Stream) -> Option<usize> {
    (!stream.starts.is_empty()).then(|| random.pick(&stream.starts))
}

fn change_length(random: &mut Random, stream: &Stream, changed: &mut [u8]) {
    let Some(start) = any_start(random, stream) else {
        return;
    };
    let field = &mut changed[start + 1..start + HEADER];
    let length = u16::from_le_bytes([field[0], field[1]]);
    let length = match random.below(7) {
        0 => length.wrapping_sub(1),
        1 => length.wrapping_add(1),
        2 => length.swap_bytes(),
        3 => 0,
        4 => u16::MAX,
        5 => random.below(60) as u16,
        _ => random.next() as u16,
    };
    field.copy_from_slice(&length.to_le_bytes());
}

fn change_tag(random: &mut Random, stream: &Stream, changed: &mut [u8]) {
    if let Some(start) = any_start(random, stream) {
        changed[start] = match random.below(3) {
            0 => random.pick(&TAGS),
            1 => random.next() as u8,
            _ => random.below(12) as u8,
        };
    }
}

// Puts a wrong value into a field of some record that has such a field, if one is found. Each tag has the same chance.
fn change_field(random: &mut Random, stream: &Stream, changed: &mut [u8]) {
    for _ in 0..20 {
        let tag = 1 + random.below(usize::from(GUARD)) as u8;
        let mut starts = stream.starts.clone();
        starts.retain(|start| changed[*start] == tag);
        let wrongs = wrongs(tag);
        if !wrongs.is_empty() && !starts.is_empty() {
            let body = random.pick(&starts) + HEADER;
            for (at, byte) in &wrongs[random.below(wrongs.len())].pokes {
                changed[body + at] = *byte;
            }
            return;
        }
    }
}

// A stream damaged so. The other one is for splicing.
pub fn damaged(random: &mut Random, damage: Damage, stream: &Stream, other: &Stream) -> Vec<u8> {
    let mut changed = stream.bytes.clone();
    match damage {
        Damage::Flipped => flip(random, &mut changed),
        Damage::Cut => cut(random, stream, &mut changed),
        Damage::Spliced => return splice(random, &stream.bytes, &other.bytes),
        Damage::Inserted => insert(random, &mut changed),
        Damage::Deleted => delete(random, &mut changed),
        Damage::Random => {
            let count = random.below(300);
            return bytes(random, count);
        }
        Damage::RandomBodies => {
            changed.truncate(any_start(random, stream).unwrap_or(0));
            changed.extend(random_bodies(random));
        }
        Damage::Length => change_length(random, stream, &mut changed),
        Damage::Field => change_field(random, stream, &mut changed),
        Damage::Tag => change_tag(random, stream, &mut changed),
    }
    changed
}

// Random streams without a bad record. Each record is chosen by the nodes that the ones before it have left.
use crate::call::{Answer, Call, TypeCode};
use crate::encode::{encode, retain};
use crate::generate::{Source, Spread};
use crate::native::ScalarType;
use crate::plans::ADD;
use crate::random::Random;
use crate::record::next;
use crate::reference::Session;
use crate::words::{LIMIT, operands};

// A stream's bytes, and where each of its records begins.
#[derive(Default)]
pub struct Stream {
    pub bytes: Vec<u8>,
    pub starts: Vec<usize>,
}

// What a stream is mostly about.
#[derive(Clone, Copy, Debug, PartialEq, Eq)]
pub enum Shape {
    // No record, or a few.
    Short,
    // Calls of all kinds.
    Plain,
    // Calls that lead to guards, most of which narrow.
    Guarded,
    // Up to several hundred records, with retains among them.
    Long,
    // A value doubled so often that a reduction of it takes up to all units, and more.
    Doubled,
    // A graph with little room left, or none.
    Full,
    // Input and output are longer than a pipe holds.
    Huge,
}

// Widths, ids and offsets at the limits of what passes and of what a field can say.
const EDGE_WIDTHS: [u64; 10] = [0, 1, 8, 63, 64, 65, 127, 128, 129, 255];
const EDGE_IDS: [u64; 6] = [0, 1, 511, 512, 513, 65535];
const EDGE_OFFSETS: [u64; 8] = [0, 1, 127, 128, 129, 255, 256, 65535];

// The records of a graph that grows to a few hundred nodes, at most for each of them.
const RECORDS_PER_NODE: usize = 4;

pub struct Maker {
    source: Source,
    session: Session,
    stream: Stream,
}

// A shape as often as streams have it. Huge ones are asked for.
pub fn any_shape(random: &mut Random) -> Shape {
    match random.below(50) {
        0..8 => Shape::Short,
        8..18 => Shape::Guarded,
        18..24 => Shape::Long,
        24..28 => Shape::Doubled,
        28 => Shape::Full,
        _ => Shape::Plain,
    }
}

// A stream of that shape.
pub fn shaped(seed: u64, shape: Shape) -> Stream {
    let mut maker = Maker::new(seed);
    maker.make(shape);
    maker.stream
}

// A stream of so many records on graphs that grow to a few hundred nodes and are retained down again.
pub fn steady(seed: u64, records: usize) -> Stream {
    let mut maker = Maker::new(seed);
    maker.steady(records);
    maker.stream
}

fn type_mut(call: &mut Call) -> Option<&mut TypeCode> {
    match call {
        Call::Constant { ty, .. }
        | Call::Input { ty, .. }
        | Call::Effect { ty, .. }
        | Call::Unary { ty, .. }
        | Call::Binary { ty, .. } => Some(ty),
        _ => None,
    }
}

// The widths that can be any: those beside the type, and else that of Bits.
fn widths_mut(call: &mut Call) -> Vec<&mut u64> {
    if !call.widths_mut(false).is_empty() {
        return call.widths_mut(false);
    }
    let bits = type_mut(call).filter(|ty| ty.code == 1);
    bits.map(|ty| &mut ty.width).into_iter().collect()
}

fn put_in_one(random: &mut Random, mut places: Vec<&mut u64>, number: u64) {
    if !places.is_empty() {
        let place = random.below(places.len());
        *places[place] = number;
    }
}

impl Maker {
    fn new(seed: u64) -> Self {
        let mut source = Source::new(seed, false);
        source.start();
        Maker {
            source,
            session: Session::new(),
            stream: Stream::default(),
        }
    }

    fn random(&mut self) -> &mut Random {
        &mut self.source.random
    }

    fn below(&mut self, limit: usize) -> usize {
        self.random().below(limit)
    }

    fn records(&self) -> usize {
        self.stream.starts.len()
    }

    // Adds a record. Its answer is that of what its bytes say.
    fn put(&mut self, bytes: &[u8]) -> Answer {
        self.stream.starts.push(self.stream.bytes.len());
        self.stream.bytes.extend(bytes);
        match next(bytes) {
            Some(Ok((record, []))) => self.session.answer(&record),
            _ => panic!("one record that is not bad: {bytes:?}"),
        }
    }

    // Adds a call, if there are records of its kind.
    fn call(&mut self, call: &Call) -> Option<Answer> {
        Some(self.put(&encode(call)?))
    }

    // Adds the call that comes next in the source's mind, or none if there are no records of its kind.
    fn chosen(&mut self, spread: Spread) {
        let call = self.source.call(self.session.scalars(), spread);
        let answer = self.call(&call).unwrap_or(Answer::None);
        self.source.hear(answer);
    }

    // A call of any kind, perhaps with one of its numbers at a limit.
    fn edge(&mut self) {
        let mut calls = self.source.calls(self.session.scalars());
        calls.retain(|call| encode(call).is_some());
        let random = self.random();
        let mut call = random.pick(&calls);
        let (width, id) = (random.pick(&EDGE_WIDTHS), random.pick(&EDGE_IDS));
        match (random.below(3), &mut call) {
            (0, call) => put_in_one(random, call.ids_mut(), id),
            (_, Call::Slice { offset, .. }) => *offset = random.pick(&EDGE_OFFSETS),
            (_, call) => put_in_one(random, widths_mut(call), width),
        }
        self.call(&call);
    }

    // Keeps the operands of kept nodes too.
    fn close(&self, keep: &mut [u8]) {
        for (id, scalar) in self.session.scalars().iter().enumerate().rev() {
            if keep[id] == 1 {
                for operand in operands(&scalar.operation) {
                    keep[operand] = 1;
                }
            }
        }
    }

    // A set of nodes with their operands: of so many nodes one is wanted, or all but one.
    fn closed(&mut self, times: usize, is_most: bool) -> Vec<u8> {
        let count = self.session.count();
        let random = self.random();
        let mut keep: Vec<u8> = (0..count)
            .map(|_| (random.once_in(times) != is_most).into())
            .collect();
        self.close(&mut keep);
        keep
    }

    // A retain that is not refused.
    fn keep(&mut self, keep: &[u8]) {
        let answer = self.put(&retain(keep));
        assert!(matches!(answer, Answer::Kept(_)), "{answer:?}");
        self.source.renumber(keep);
    }

    fn keep_some(&mut self) {
        let count = self.session.count();
        let keep = match self.below(12) {
            0 => vec![1; count],
            1 => vec![0; count],
            2..6 => self.closed(10, true),
            _ => {
                let times = self.random().pick(&[2, 3, 10, 60]);
                self.closed(times, false)
            }
        };
        self.keep(&keep);
    }

    // A retain with a list that may have another length, an element past 1, or an operand dropped.
    fn keep_wrong(&mut self) {
        let count = self.session.count();
        let mut keep = self.closed(3, false);
        let random = self.random();
        match random.below(9) {
            0 => keep.truncate(count.saturating_sub(1)),
            1 => keep.push(random.below(2) as u8),
            2 => keep.truncate(random.below(count + 1)),
            3 => keep.clear(),
            4 => keep.resize(random.pick(&[512, 513, 600, 2000]), 1),
            5 if random.once_in(20) => keep.resize(65535, 0),
            _ if keep.is_empty() => keep.push(0),
            5..7 => keep[random.below(count)] = random.pick(&[2, 3, 128, 255]),
            _ => keep[random.below(count)] ^= 1,
        }
        if let Answer::Kept(_) = self.put(&retain(&keep)) {
            self.source.renumber(&keep);
        }
    }

    fn step(&mut self, spread: Spread) {
        match self.below(60) {
            0 => self.keep_some(),
            1 => self.keep_wrong(),
            2..5 => self.edge(),
            _ => self.chosen(spread),
        }
    }

    // Goes on for so many records.
    fn grow(&mut self, records: usize, spread: Spread) {
        let end = self.records() + records;
        while self.records() < end {
            self.step(spread);
        }
    }

    fn guarded(&mut self) {
        self.source.guarding = 8;
        for _ in 0..1 + self.below(8) {
            self.source.begin_guards(self.session.scalars());
            let records = 6 + self.below(16);
            self.grow(records, Spread::Few);
        }
    }

    // A value doubled, and its low bits.
    fn doubled(&mut self) {
        let before = self.below(10);
        self.grow(before, Spread::Few);
        let width = u64::from(self.source.width().max(9));
        let ty = TypeCode { code: 1, width };
        let mut last = self.call(&Call::Effect { number: 0, ty });
        for _ in 0..6 + self.below(4) {
            if let Some(Answer::Id(id)) = last {
                last = self.call(&Call::Binary {
                    ty,
                    op: ADD,
                    left: id,
                    right: id,
                });
            }
        }
        if let Some(Answer::Id(id)) = last {
            let width = self.below(10) as u64;
            self.call(&Call::Slice {
                id,
                offset: 0,
                width,
            });
        }
    }

    // New leaves until there is room for so many nodes.
    fn fill(&mut self, room: usize) {
        let mut number = 0;
        while self.session.count() < LIMIT - room {
            let ty = self.source.known_type();
            let call = match self.below(3) {
                0 if ty != ScalarType::Bool => Call::Constant {
                    ty: ty.into(),
                    value: number.into(),
                },
                _ => Call::Effect {
                    number,
                    ty: ty.into(),
                },
            };
            self.call(&call);
            number += 1;
        }
    }

    fn full(&mut self) {
        if self.random().once_in(2) {
            self.doubled();
        }
        let before = self.below(80);
        self.grow(before, Spread::Few);
        let room = self.below(16);
        self.fill(room);
        for _ in 0..20 + self.below(60) {
            self.chosen(Spread::Many);
        }
        if self.random().once_in(2) {
            self.grow(60, Spread::Many);
        }
    }

    fn steady(&mut self, records: usize) {
        while self.records() < records {
            self.source.start();
            let nodes = 150 + self.below(250);
            let end = records.min(self.records() + RECORDS_PER_NODE * nodes);
            while self.session.count() < nodes && self.records() < end {
                self.chosen(Spread::Few);
            }
            if self.records() < records {
                let times = self.random().pick(&[4, 10, 30]);
                let keep = self.closed(times, false);
                self.keep(&keep);
            }
        }
    }

    fn make(&mut self, shape: Shape) {
        match shape {
            Shape::Short => {
                let records = self.below(9);
                self.grow(records, Spread::Few);
            }
            Shape::Plain => {
                let records = 8 + self.below(90);
                self.grow(records, Spread::Few);
            }
            Shape::Guarded => self.guarded(),
            Shape::Long => {
                let records = 120 + self.below(300);
                self.grow(records, Spread::Few);
            }
            Shape::Doubled => {
                self.doubled();
                let records = self.below(40);
                self.grow(records, Spread::Few);
            }
            Shape::Full => self.full(),
            Shape::Huge => {
                let records = 12_000 + self.below(6_000);
                self.steady(records);
            }
        }
    }
}

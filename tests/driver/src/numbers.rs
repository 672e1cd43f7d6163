// Calls with any numbers: codes, widths, ids, parameters and truth values that may name nothing, and lent slices of any
// length. Each is put to both tiers where the region is a graph: a grown one, the empty one, or another. The evaluators
// and the mask, which look at no region, are compared on values too.
use crate::call::{Call, VALUE_WORDS};
use crate::classes::{List, Outcome, Rounds};
use crate::generate::{Source, Spread, mask};
use crate::native::{Scalar, ScalarType};
use crate::retains::Retain;
use crate::words::{REGION, WORDS, graph_of, readable};
use ScalarType::{Bits, Bool, Integer};

pub const ANY_GROWN: &str = "any numbers, grown";
pub const ANY_EMPTY: &str = "any numbers, empty";
pub const ANY_OTHER: &str = "any numbers, other";
pub const ANY_NO_GRAPH: &str = "any numbers, no graph";
pub const VALUES: &str = "values";

// The calls on each region in a round, the values, and the retains with slices of any lengths.
const CALLS: usize = 24;
const EVALUATIONS: usize = 24;
const RETAINS: usize = 2;

// Numbers about the limits of codes, widths, counts and of a number's own sizes.
pub const LIMITS: [u64; 42] = [
    0,
    1,
    2,
    3,
    4,
    5,
    9,
    10,
    12,
    13,
    14,
    15,
    16,
    17,
    19,
    20,
    29,
    34,
    38,
    39,
    64,
    127,
    128,
    129,
    200,
    255,
    256,
    511,
    512,
    513,
    65535,
    65536,
    65536 + 8,
    (1 << 32) - 1,
    1 << 32,
    (1 << 32) + 20,
    (1 << 63) - 1,
    1 << 63,
    (1 << 63) + 1,
    u64::MAX - 8,
    u64::MAX - 1,
    u64::MAX,
];

// Lengths of slices that are there, most of them not a region's.
const LENGTHS: [usize; 12] = [
    0,
    1,
    2,
    12,
    13,
    511,
    512,
    513,
    REGION - 1,
    REGION,
    REGION + 1,
    65536,
];

impl Source {
    // Any number, now and then one about the given one.
    fn any_number(&mut self, near: u64) -> u64 {
        match self.random.below(4) {
            0 => near.wrapping_add(self.random.next() % 3).wrapping_sub(1),
            1 => self.random.next() >> self.random.below(64),
            _ => self.random.pick(&LIMITS),
        }
    }

    fn node(&mut self, count: u64) -> Call {
        let id = self.id(count);
        Call::Node { id, room: WORDS }
    }

    fn evaluate_unary(&mut self) -> Call {
        let op = 10 + self.random.next() % 7;
        let width = self.random.below(129) as u16;
        Call::EvaluateUnary {
            op,
            parameter: if op < 13 { 0 } else { width.into() },
            value: self.pattern(Bits(width), Spread::Few),
            room: VALUE_WORDS,
        }
    }

    fn evaluate_binary(&mut self) -> Call {
        let ty = match self.random.below(8) {
            0 => Bool,
            1 | 2 => Integer,
            _ => Bits(self.random.below(129) as u16),
        };
        let [left, right] = match self.random.below(3) {
            0 => [0; 2].map(|_| self.pattern(ty, Spread::Few)),
            1 => [self.random.pattern(), self.random.below(140) as u128],
            _ => self.two_values(),
        };
        Call::EvaluateBinary {
            op: 20 + self.random.next() % 19,
            ty: ty.into(),
            left,
            right,
            room: VALUE_WORDS,
        }
    }

    fn mask(&mut self) -> Call {
        Call::Mask {
            width: self.random.next() % 130,
            room: VALUE_WORDS,
        }
    }

    // A call of any kind with none, some or all of its numbers changed to any.
    fn any_call(&mut self, scalars: &[Scalar]) -> Call {
        let count = scalars.len() as u64;
        let mut calls = self.calls(scalars);
        calls.extend([
            self.node(count),
            self.evaluate_unary(),
            self.evaluate_binary(),
            self.mask(),
        ]);
        let mut call = self.random.pick(&calls);
        let times = self.random.pick(&[1, 2, 3, 5, 20]);
        for number in call.numbers_mut() {
            if self.random.once_in(times) {
                *number = self.any_number(count);
            }
        }
        self.change_room(&mut call);
        call
    }

    // Now and then another number of lent words.
    fn change_room(&mut self, call: &mut Call) {
        if let Some(room) = call.room_mut()
            && self.random.once_in(4)
        {
            *room = self.any_number(*room as u64) as usize;
        }
    }

    // A value by itself.
    fn evaluation(&mut self) -> Call {
        let mut call = match self.random.below(9) {
            0 => self.mask(),
            1..4 => self.evaluate_unary(),
            _ => self.evaluate_binary(),
        };
        if self.random.once_in(6) {
            let numbers = call.numbers_mut();
            let place = self.random.below(numbers.len());
            let number = self.any_number(129);
            *call.numbers_mut()[place] = number;
        }
        self.change_room(&mut call);
        call
    }

    // A retain with slices of any lengths, on so many nodes.
    fn any_retain(&mut self, count: usize) -> Retain {
        let [keep, mapping] = [0; 2].map(|_| match self.random.below(3) {
            0 => count,
            _ => self.random.pick(&LENGTHS),
        });
        let element = self.random.pick(&[0, 0, 1, 255]);
        Retain::of_lengths(vec![element; keep], mapping)
    }

    // A region that is no graph: of another length, of any words, or with a word changed.
    pub fn no_graph(&mut self) -> Vec<u64> {
        loop {
            let mut region = self.other_region();
            match self.random.below(4) {
                0 => region.resize(self.random.pick(&LENGTHS), 0),
                1 => region.fill_with(|| self.any_number(0)),
                _ => {
                    self.damage(&mut region);
                }
            }
            if graph_of(&region).is_none() {
                return region;
            }
        }
    }
}

impl Rounds {
    // Calls with any numbers at the end of a list.
    pub fn numbers_in(&mut self, list: &mut List) -> Outcome {
        self.comparison.start(ANY_GROWN, &list.region);
        self.comparison.has_both = true;
        for _ in 0..CALLS {
            let call = self.numbers.any_call(&list.graph.scalars);
            self.call_on(list, &call)?;
        }
        self.comparison.has_both = false;
        self.end(list);
        self.retains_of_any_lengths(ANY_GROWN, &list.region)
    }

    // Calls with any numbers, each on what the one before it left or, if so wanted, on the region itself. And retains.
    fn numbers_on(&mut self, class: &'static str, region: &[u64], is_fresh: bool) -> Outcome {
        self.comparison.start(class, region);
        self.comparison.has_both = true;
        let mut copy = region.to_vec();
        for _ in 0..CALLS {
            if is_fresh {
                copy.copy_from_slice(region);
                self.comparison.place(region);
            }
            let call = self.numbers.any_call(&readable(&copy));
            self.comparison.call(&mut copy, &call)?;
        }
        self.comparison.has_both = false;
        self.retains_of_any_lengths(class, region)
    }

    fn retains_of_any_lengths(&mut self, class: &'static str, region: &[u64]) -> Outcome {
        self.comparison.start(class, region);
        for _ in 0..RETAINS {
            let retain = self.numbers.any_retain(readable(region).len());
            self.comparison.is_twin = self.numbers.random.once_in(2);
            self.comparison.retain(&mut region.to_vec(), &retain)?;
        }
        self.comparison.is_twin = false;
        Ok(())
    }

    fn values(&mut self) -> Outcome {
        self.comparison.start(VALUES, &[]);
        for turn in 0..EVALUATIONS {
            let call = self.numbers.evaluation();
            // Every other one through the binding.
            self.comparison.is_twin = turn % 2 == 1;
            self.comparison.call(&mut [], &call)?;
        }
        self.comparison.is_twin = false;
        Ok(())
    }

    // The round's calls with any numbers, but for those on grown graphs.
    pub fn numbers(&mut self) -> Outcome {
        self.numbers.start();
        self.numbers_on(ANY_EMPTY, &[0; REGION], true)?;
        let region = self.numbers.other_region();
        self.numbers_on(ANY_OTHER, &region, false)?;
        let region = self.numbers.no_graph();
        self.numbers_on(ANY_NO_GRAPH, &region, false)?;
        self.values()
    }
}

// The values about a width's limits.
pub fn about(width: u16) -> [u128; 4] {
    let top = mask(width);
    [top, top >> 1, (top >> 1) + 1, top.wrapping_add(1)]
}

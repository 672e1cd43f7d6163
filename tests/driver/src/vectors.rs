// Writes a fixed sample of calls to FOLDER/stdin, and the original's answers to FOLDER/stdout. The calls come to every
// site of the original that can be come to.
use crate::call::{Answer, Call, Side};
use crate::edges::{self, Step};
use crate::generate::{Source, Spread};
use crate::lines::{
    DONE, HELD, MAPPING, answer_line, call_line, has_line, peek_line, place_lines, poke_line,
    retain_line, words_line,
};
use crate::meter::{self, Kind};
use crate::native::ScalarType;
use crate::original::{Original, retain_region};
use crate::retains::Retain;
use crate::sites::{Reach, sites};
use crate::words::{LIMIT, REGION, UNTOUCHED, readable};
use std::fs;

const SEED: u64 = 0x5ca1_ab1e_0004_0002;
const LISTS: usize = 56;
const CALLS: usize = 120;
const CALLS_AFTER_RETAIN: usize = 12;
const GUARDED_LISTS: usize = 24;
const GUARD_PLANS: usize = 4;
const CALLS_OF_PLAN: usize = 14;
const GUARDS_AGAIN: usize = 6;
const REGIONS: usize = 84;
const CALLS_ON_REGION: usize = 24;
const DAMAGES: usize = 4;
// The most nodes of a small region: each node takes three lines.
const SMALL: u64 = 64;
// The room left in a graph that is filled, and the calls then.
const ROOM: usize = 6;
const CALLS_ON_FULL: usize = 150;

struct Vectors {
    input: String,
    output: String,
    held: Vec<u64>,
    source: Source,
    calls: usize,
    retains: usize,
    // The guards that narrow, and those refused 7 after an alias was set.
    narrowed: usize,
    taken_back: usize,
}

impl Vectors {
    fn place(&mut self, region: &[u64]) {
        for line in place_lines(region, &mut self.held) {
            self.input += &line;
            self.output += DONE;
        }
    }

    fn call(&mut self, len: usize, call: &Call) -> Answer {
        meter::count_as(Kind::Grown);
        self.input += &call_line(call, len);
        let answer = Original.call(&mut self.held[..len], call);
        self.output += &answer_line(answer, &self.held);
        self.calls += 1;
        if meter::aliases() > 0 {
            self.narrowed += usize::from(answer == Answer::Done);
            self.taken_back += usize::from(answer == Answer::Refused(7));
        }
        meter::count_as(Kind::Fixed);
        answer
    }

    // Whether the retain was made: a line has no place for a long list.
    fn retain(&mut self, len: usize, retain: &Retain) -> bool {
        let Some(line) = retain_line(len, &retain.keep, retain.mapping) else {
            return false;
        };
        self.input += &line;
        let (region, past) = self.held.split_at_mut(MAPPING);
        let mapping = &mut past[..retain.mapping];
        let answer = retain_region(&mut region[..len], &retain.keep, mapping);
        self.output += &answer_line(answer, &self.held);
        self.retains += 1;
        true
    }

    // The retain, or the words that it leaves where a line has no place for it.
    fn retain_or_place(&mut self, retain: &Retain) {
        if !self.retain(REGION, retain) {
            let mut region = self.held[..REGION].to_vec();
            retain_region(&mut region, &retain.keep, &mut vec![0; retain.mapping]);
            self.place(&region);
        }
    }

    // Retains that are refused, with a mapping that is not zeros, one that is not, and calls on what it leaves.
    fn retains(&mut self) {
        let scalars = readable(&self.held[..REGION]);
        self.held[MAPPING..][..4].fill(UNTOUCHED);
        self.input += &poke_line(MAPPING, &self.held);
        self.output += DONE;
        for retain in self.source.retains(&scalars) {
            if retain.is_refused() {
                self.retain(REGION, &retain);
            }
        }
        let last = self.source.retain(&scalars);
        if self.retain(REGION, &last) {
            self.source.renumber(&last.keep);
            let region = self.held[..REGION].to_vec();
            self.source.look_at(&region);
            self.random_calls(CALLS_AFTER_RETAIN);
        }
    }

    fn look(&mut self, at: usize) {
        self.input += &peek_line(at);
        self.output += &words_line(at, &self.held);
    }

    fn edges(&mut self) {
        for step in edges::steps() {
            match step {
                Step::Region(region) => self.place(&region),
                Step::Look(at) => self.look(at),
                Step::Call(len, call) => {
                    // What only numbers can say has no line.
                    if has_line(&call) {
                        self.call(len, &call);
                    }
                }
                Step::Retain(keep) => self.retain_or_place(&Retain::new(keep, "all kept")),
            }
        }
    }

    fn random_calls(&mut self, calls: usize) {
        for _ in 0..calls {
            let scalars = readable(&self.held[..REGION]);
            let call = self.source.call(&scalars, Spread::Few);
            let answer = self.call(REGION, &call);
            self.source.hear(answer);
        }
    }

    fn grown(&mut self) {
        self.place(&[0; REGION]);
        self.source.start();
        self.random_calls(CALLS);
        self.retains();
    }

    // Calls that lead to guards, a retain that keeps most nodes, and the guards again: their Refines stand there
    // already.
    fn guarded(&mut self) {
        self.place(&[0; REGION]);
        self.source.start();
        for _ in 0..GUARD_PLANS {
            let scalars = readable(&self.held[..REGION]);
            self.source.begin_guards(&scalars);
            self.random_calls(CALLS_OF_PLAN);
        }
        let scalars = readable(&self.held[..REGION]);
        let retain = self.source.retain_most(&scalars);
        if self.retain(REGION, &retain) {
            self.source.renumber(&retain.keep);
        }
        for _ in 0..GUARDS_AGAIN {
            if let Some(call) = self.source.guard_again() {
                self.call(REGION, &call);
            }
        }
    }

    // A grown graph, filled up to a little room.
    fn full(&mut self) {
        self.grown();
        let ty = ScalarType::Integer.into();
        for number in 0..(LIMIT - ROOM) as u64 - self.held[0] {
            self.call(REGION, &Call::Effect { number, ty });
        }
        self.random_calls(CALLS_ON_FULL);
    }

    // A region that no calls could have grown, mostly a small one, and damage to it.
    fn other(&mut self, is_small: bool) {
        let mut region = self.source.other_region();
        while is_small && region[0] > SMALL {
            region = self.source.other_region();
        }
        self.source.look_at(&region);
        self.place(&region);
        self.random_calls(CALLS_ON_REGION);
        self.retains();
        let region = self.held[..REGION].to_vec();
        for _ in 0..DAMAGES {
            let mut damaged = region.clone();
            self.source.damage(&mut damaged);
            self.place(&damaged);
            for call in self.source.calls(&readable(&damaged)) {
                self.call(REGION, &call);
            }
        }
    }

    // Lists that come to the sites that the sample has not come to.
    fn cover(&mut self) {
        let mut seed = SEED;
        let mut missing = missing();
        while !missing.is_empty() {
            seed += 1;
            let (region, calls) = trial(seed);
            let is_new = |site: &usize| meter::hits(Kind::Other, *site) > 0;
            if !missing.iter().any(is_new) {
                continue;
            }
            self.place(&region);
            for call in calls {
                self.call(REGION, &call);
            }
            missing.retain(|site| meter::hits(Kind::Other, *site) == 0);
        }
    }
}

// The sites that can be come to and that the sample has not come to.
fn missing() -> Vec<usize> {
    let is_missing = |(number, reach): &(usize, Reach)| {
        !matches!(reach, Reach::Never(_)) && meter::hits(Kind::Grown, *number) == 0
    };
    let all = sites().map(|site| site.reach).enumerate();
    all.filter(is_missing).map(|(number, _)| number).collect()
}

// A list of calls, on the region of zeros or on one that no calls could have grown. No calls on a large one.
fn trial(seed: u64) -> (Vec<u64>, Vec<Call>) {
    let mut source = Source::new(seed, false);
    let region = if source.random.once_in(2) {
        source.start();
        vec![0; REGION]
    } else {
        source.other_region()
    };
    source.look_at(&region);
    let mut held = region.clone();
    let mut calls = vec![];
    meter::count_as(Kind::Other);
    let turns = if region[0] > SMALL {
        0
    } else {
        CALLS_ON_REGION
    };
    for _ in 0..turns {
        let call = source.call(&readable(&held), Spread::Few);
        source.hear(Original.call(&mut held, &call));
        calls.push(call);
    }
    meter::count_as(Kind::Fixed);
    (region, calls)
}

pub fn write(folder: &str) {
    let mut vectors = Vectors {
        input: String::new(),
        output: String::new(),
        held: vec![0; HELD],
        source: Source::new(SEED, false),
        calls: 0,
        retains: 0,
        narrowed: 0,
        taken_back: 0,
    };
    vectors.edges();
    for _ in 0..LISTS {
        vectors.grown();
    }
    for _ in 0..GUARDED_LISTS {
        vectors.guarded();
    }
    vectors.full();
    for turn in 0..REGIONS {
        vectors.other(turn % 12 > 0);
    }
    let random = vectors.calls;
    vectors.cover();
    assert!(missing().is_empty(), "the sample comes to every site");
    fs::write(format!("{folder}/stdin"), &vectors.input).expect("write stdin");
    fs::write(format!("{folder}/stdout"), &vectors.output).expect("write stdout");
    let (calls, lines) = (vectors.calls, vectors.input.lines().count());
    println!(
        "{calls} calls and {} retains in {lines} lines, seed {SEED:#x}; {} of the calls for rare sites",
        vectors.retains,
        calls - random
    );
    println!(
        "{} guards narrow, {} are refused 7 after an alias was set",
        vectors.narrowed, vectors.taken_back
    );
}

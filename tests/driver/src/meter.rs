// What the metered original tells as it works: each entry into a builder, each node that it is about to store, each
// alias that it is about to set, and each site that it comes to.
use crate::sites::COUNT;
use crate::words::LIMIT;
use std::any::Any;
use std::cell::{Cell, RefCell};
use std::panic::resume_unwind;

// The units of a call.
pub const UNITS: u64 = 1024;

thread_local! {
    static ENTERED: Cell<u64> = const { Cell::new(0) };
    static STORED: Cell<u64> = const { Cell::new(0) };
    static ALIASED: RefCell<Vec<usize>> = const { RefCell::new(vec![]) };
    static KIND: Cell<Kind> = const { Cell::new(Kind::Fixed) };
    static HITS: [[Cell<u64>; COUNT]; 3] = const { [const { [const { Cell::new(0) }; COUNT] }; 3] };
}

// The regions by which hits are counted.
#[derive(Clone, Copy, PartialEq, Eq)]
pub enum Kind {
    Grown,
    Other,
    // What does not depend on the seed.
    Fixed,
}

// Why a call ends in the middle of its work.
enum Stop {
    Full,
    Spent,
}

// A call begins.
pub fn start() {
    ENTERED.set(0);
    STORED.set(0);
    ALIASED.with_borrow_mut(Vec::clear);
}

// The units that the last call has used.
pub fn units() -> u64 {
    ENTERED.get()
}

// The nodes that it has stored.
pub fn stored() -> u64 {
    STORED.get()
}

// The nodes to which it has given an alias. None of them had one: a guard follows aliases to their end first.
pub fn aliased() -> Vec<usize> {
    ALIASED.with_borrow(Vec::clone)
}

// How many they are.
pub fn aliases() -> u64 {
    ALIASED.with_borrow(Vec::len) as u64
}

// One of unary, modular, binary, slice, concat and identity is entered.
pub fn enter() {
    let entered = ENTERED.get() + 1;
    ENTERED.set(entered);
    if entered > UNITS {
        resume_unwind(Box::new(Stop::Spent));
    }
}

// A node is about to be stored after so many.
pub fn store(count: usize) {
    if count >= LIMIT {
        resume_unwind(Box::new(Stop::Full));
    }
    STORED.set(STORED.get() + 1);
}

// A node is about to get an alias.
pub fn alias(id: usize) {
    ALIASED.with_borrow_mut(|aliased| aliased.push(id));
}

// The refusal that ended a call. A panic of the original's own goes on.
pub fn refusal(payload: Box<dyn Any + Send>) -> u64 {
    match payload.downcast::<Stop>().map(|stop| *stop) {
        Ok(Stop::Full) => 7,
        Ok(Stop::Spent) => 8,
        Err(payload) => resume_unwind(payload),
    }
}

// The calls that follow are on regions of this kind.
pub fn count_as(kind: Kind) {
    KIND.set(kind);
}

// How often a site was come to on regions of a kind.
pub fn hits(kind: Kind, site: usize) -> u64 {
    HITS.with(|hits| hits[kind as usize][site].get())
}

// The site is come to.
pub fn hit(site: usize) {
    HITS.with(|hits| {
        let hits = &hits[KIND.get() as usize][site];
        hits.set(hits.get() + 1);
    });
}

// The site is come to with this value.
pub fn pass<T>(site: usize, value: T) -> T {
    hit(site);
    value
}

// The site is come to if this is None.
pub fn none<T>(site: usize, option: Option<T>) -> Option<T> {
    if option.is_none() {
        hit(site);
    }
    option
}

// The site is come to if this holds.
pub fn when(site: usize, holds: bool) -> bool {
    if holds {
        hit(site);
    }
    holds
}

// The site is come to if this fails.
pub fn unless(site: usize, holds: bool) -> bool {
    if !holds {
        hit(site);
    }
    holds
}

// The library's side through the Rust binding: on a region that calls have grown from zeros, each call is the binding's,
// and what it shows of its graph is written back as words. Other regions, and what the binding's types can't say, go to
// the exported functions. The marks that it holds are seen by returns to them.
use crate::call::{Answer, Call, ListFunction, Marking, Ready, Side, binary_of, unary_of};
use crate::guard_list::GuardList;
use crate::library::InGraph;
use crate::marks::mark_start;
use crate::native;
use crate::words::{ALIAS, REGION, WORDS, alias_word, node_words, start_of};
use scalars::{Graph, Refusal, ScalarId};
use std::cell::Cell;

thread_local! {
    // The calls that went through the binding.
    static MADE: Cell<u64> = const { Cell::new(0) };
}

pub fn made() -> u64 {
    MADE.get()
}

// A type of the original and the binding's, both with these variants.
macro_rules! alike {
    ($there:ident, $back:ident, $ty:ident, $($plain:ident)*, $($wide:ident)*) => {
        fn $there(value: native::$ty) -> scalars::$ty {
            match value {
                $(native::$ty::$plain => scalars::$ty::$plain,)*
                $(native::$ty::$wide(width) => scalars::$ty::$wide(width),)*
            }
        }

        fn $back(value: scalars::$ty) -> native::$ty {
            match value {
                $(scalars::$ty::$plain => native::$ty::$plain,)*
                $(scalars::$ty::$wide(width) => native::$ty::$wide(width),)*
            }
        }
    };
}

alike! { bound_type, type_back, ScalarType, Bool Integer, Bits }
alike! { bound_unary, unary_back, Unary, BoolNot BitNot Negate, Truncate SignExtend LeadingZeros TrailingZeros }
alike! {
    bound_binary, binary_back, Binary,
    Add Sub Mul And Or Xor ShiftLeft ShiftRight ArithmeticShiftRight Equal NotEqual LessSigned LessUnsigned
    LessEqualSigned LessEqualUnsigned DivideSigned RemainderSigned DivideUnsigned RemainderUnsigned,
}

fn operation_back(operation: &scalars::Operation) -> native::Operation {
    use scalars::Operation::{Binary, Concat, Constant, Effect, Input, Refine, Slice, Unary};
    match *operation {
        Constant(value) => native::Operation::Constant(value),
        Input(number) => native::Operation::Input(number),
        Refine(id) => native::Operation::Refine(id),
        Effect(number) => native::Operation::Effect(number),
        Unary(operator, id) => native::Operation::Unary(unary_back(operator), id),
        Binary(operator, left, right) => {
            native::Operation::Binary(binary_back(operator), left, right)
        }
        Slice {
            value,
            offset,
            width,
        } => native::Operation::Slice {
            value,
            offset,
            width,
        },
        Concat {
            high,
            low,
            low_width,
        } => native::Operation::Concat {
            high,
            low,
            low_width,
        },
    }
}

// A node as the binding shows it.
fn shown(graph: &Graph, id: ScalarId) -> [u64; WORDS] {
    let scalar = &graph.scalars[id];
    let range = scalar.range.map(|range| native::Range {
        min: range.min,
        max: range.max,
    });
    let same = native::Scalar {
        ty: type_back(scalar.ty),
        range,
        operation: operation_back(&scalar.operation),
    };
    node_words(&same, graph.alias(id))
}

fn id_answer(answer: Result<ScalarId, Refusal>) -> Answer {
    match answer {
        Ok(id) => Answer::Id(id as u64),
        Err(refusal) => Answer::Refused(refusal.number()),
    }
}

fn answered<T>(answer: Result<Option<T>, Refusal>, some: impl FnOnce(T) -> Answer) -> Answer {
    match answer {
        Ok(value) => value.map_or(Answer::None, some),
        Err(refusal) => Answer::Refused(refusal.number()),
    }
}

fn ids(answer: Result<Option<ScalarId>, Refusal>) -> Answer {
    answered(answer, |id| Answer::Id(id as u64))
}

fn short(number: u64) -> Option<u16> {
    number.try_into().ok()
}

fn truth(number: u64) -> Option<bool> {
    match number {
        0 => Some(false),
        1 => Some(true),
        _ => None,
    }
}

// A call that makes a leaf, if the binding's types can say it.
fn leaf(graph: &mut Graph, call: &Call) -> Option<Answer> {
    Some(match *call {
        Call::Constant { ty, value } => id_answer(graph.try_constant(bound_type(ty.ty()?), value)),
        Call::Input { number, ty, range } => {
            let range = range.map(|range| scalars::Range {
                min: range.min,
                max: range.max,
            });
            id_answer(graph.try_input(number as usize, bound_type(ty.ty()?), range))
        }
        Call::Effect { number, ty } => {
            id_answer(graph.try_effect(number as usize, bound_type(ty.ty()?)))
        }
        _ => return None,
    })
}

fn builder(graph: &mut Graph, call: &Call) -> Option<Answer> {
    Some(match *call {
        Call::Unary {
            ty,
            op,
            parameter,
            id,
        } => {
            short(parameter)?;
            let operator = bound_unary(unary_of(op, parameter)?);
            ids(graph.try_unary(bound_type(ty.ty()?), operator, id as usize))
        }
        Call::Binary {
            ty,
            op,
            left,
            right,
        } => {
            let operator = bound_binary(binary_of(op)?);
            let ty = bound_type(ty.ty()?);
            ids(graph.try_binary(ty, operator, left as usize, right as usize))
        }
        Call::Slice { id, offset, width } => {
            id_answer(graph.try_slice(id as usize, short(offset)?, short(width)?))
        }
        Call::Concat {
            high,
            low,
            low_width,
            width,
        } => {
            let (low_width, width) = (short(low_width)?, short(width)?);
            id_answer(graph.try_concat(high as usize, low as usize, low_width, width))
        }
        Call::UnsignedRange { id, low, high } => {
            ids(graph.try_unsigned_range(id as usize, low, high))
        }
        _ => return None,
    })
}

// A call about a graph as it stands, or about a condition.
fn reader(graph: &mut Graph, call: &Call) -> Option<Answer> {
    Some(match *call {
        Call::AssumeGuard {
            condition,
            expected,
        } => match graph.try_assume_guard(condition as usize, truth(expected)?) {
            Ok(()) => Answer::Done,
            Err(refusal) => Answer::Refused(refusal.number()),
        },
        Call::Literal { id, room: 2 } => answered(graph.try_literal(id as usize), Answer::Value),
        Call::Resolve { id } => id_answer(graph.try_resolve(id as usize)),
        Call::Node { id, room: WORDS } if id < graph.scalars.len() as u64 => {
            Answer::Node(shown(graph, id as usize))
        }
        Call::Guard {
            condition,
            expected,
            room: 5,
        } => {
            let found = scalars::try_guard(graph, condition as usize, truth(expected)?);
            answered(found, |guard| Answer::Guard(guard_words(&guard)))
        }
        _ => return None,
    })
}

fn guard_words(guard: &scalars::Guard) -> [u64; 5] {
    [
        crate::words::binary_code(binary_back(guard.operation)),
        guard.left as u64,
        guard.right as u64,
        guard.expected.into(),
        guard.host64.into(),
    ]
}

// Whether two values match a guard.
fn matched(op: u64, expected: u64, host64: u64, left: u128, right: u128) -> Option<Answer> {
    let guard = scalars::Guard {
        operation: bound_binary(binary_of(op)?),
        left: 0,
        right: 0,
        expected: truth(expected)?,
        host64: truth(host64)?,
    };
    Some(match guard.try_matches(left, right) {
        Ok(is) => Answer::Is(is),
        Err(refusal) => Answer::Refused(refusal.number()),
    })
}

// A list of guards as the binding takes it, if its types can say it: one answer, true or false, for each condition.
fn bound_guards(list: &GuardList) -> Option<Vec<(ScalarId, bool)>> {
    let is_there = list.told.is_none() && list.conditions.len() == list.answers.len();
    let guards = list
        .guards()
        .map(|(condition, expected)| Some((condition as usize, truth(expected)?)));
    guards.collect::<Option<_>>().filter(|_| is_there)
}

// A call that looks at no region.
fn evaluated(call: &Call) -> Option<Answer> {
    let value = match *call {
        Call::Matches {
            op,
            expected,
            host64,
            left,
            right,
        } => return matched(op, expected, host64, left, right),
        Call::EvaluateUnary {
            op,
            parameter,
            value,
            room: 2,
        } => {
            short(parameter)?;
            scalars::try_evaluate_unary(bound_unary(unary_of(op, parameter)?), value)
        }
        Call::EvaluateBinary {
            op,
            ty,
            left,
            right,
            room: 2,
        } => {
            let (operator, ty) = (bound_binary(binary_of(op)?), bound_type(ty.ty()?));
            scalars::try_evaluate_binary(operator, ty, left, right)
        }
        Call::Mask { width, room: 2 } => scalars::try_mask(short(width)?).map(Some),
        _ => return None,
    };
    Some(answered(value, Answer::Value))
}

pub struct Binding {
    graph: Graph,
    // The words of the graph as the binding showed it last.
    words: Vec<u64>,
    // Those of the marks' region, where marks stand.
    marks: Vec<u64>,
}

impl Binding {
    pub fn new() -> Self {
        Binding {
            graph: Graph::default(),
            words: vec![0; REGION],
            marks: vec![],
        }
    }

    // Is the region the binding's graph? On zeros it starts anew, unless its graph is empty and may have marks.
    fn holds(&mut self, region: &[u64]) -> bool {
        let is_other = region != self.words;
        if is_other && region.len() == REGION && region.iter().all(|word| *word == 0) {
            *self = Binding::new();
            return true;
        }
        !is_other
    }

    // Are both the binding's? Where no mark stands every other word of the marks' region is free.
    fn holds_both(&mut self, region: &[u64], marks: &[u64]) -> bool {
        let is_unmarked = marks.first() == Some(&0);
        self.holds(region)
            && match self.graph.marks() {
                0 => is_unmarked,
                _ => marks == self.marks,
            }
    }

    // Writes the nodes past so many, and every alias, as the binding shows them.
    fn show(&mut self, count: usize, region: &mut [u64]) {
        let graph = &self.graph;
        self.words[0] = graph.scalars.len() as u64;
        for id in count..graph.scalars.len() {
            self.words[start_of(id)..][..WORDS].copy_from_slice(&shown(graph, id));
        }
        for id in 0..graph.scalars.len() {
            self.words[start_of(id) + ALIAS] = alias_word(graph.alias(id));
        }
        region.copy_from_slice(&self.words);
    }

    // Writes what a return to each mark that stands leads to: the number of nodes and their aliases.
    fn show_marks(&mut self, marks: &mut [u64]) {
        let standing = self.graph.marks();
        marks[0] = standing as u64;
        for mark in 0..standing {
            let mut clone = self.graph.clone();
            let words = &mut marks[mark_start(mark)..];
            if clone.try_return_to(mark).is_err() {
                words[0] = u64::MAX;
                continue;
            }
            words[0] = clone.scalars.len() as u64;
            for id in 0..clone.scalars.len() {
                words[1 + id] = alias_word(clone.alias(id));
            }
        }
        self.marks.clear();
        if standing > 0 {
            self.marks.extend_from_slice(marks);
        }
    }

    // A call about marks.
    fn marked(&mut self, region: &mut [u64], marks: &mut [u64], call: Marking) -> Option<Answer> {
        let answer = match call {
            Marking::IsMarked => return None,
            Marking::Mark => match self.graph.try_mark() {
                Ok(mark) => Answer::Mark(mark as u64),
                Err(refusal) => Answer::Refused(refusal.number()),
            },
            Marking::ReturnTo(mark) => match self.graph.try_return_to(mark as usize) {
                Ok(()) => Answer::Done,
                Err(refusal) => Answer::Refused(refusal.number()),
            },
        };
        MADE.set(MADE.get() + 1);
        self.words.fill(0);
        self.show(0, region);
        self.show_marks(marks);
        Some(answer)
    }

    fn made(&mut self, region: &mut [u64], call: &Call) -> Option<Answer> {
        let count = self.graph.scalars.len();
        let graph = &mut self.graph;
        let answer = leaf(graph, call)
            .or_else(|| builder(graph, call))
            .or_else(|| reader(graph, call))?;
        self.show(count, region);
        Some(answer)
    }

    // A list of guards.
    fn listed(&mut self, region: &mut [u64], guards: &[(ScalarId, bool)]) -> Answer {
        MADE.set(MADE.get() + 1);
        let count = self.graph.scalars.len();
        let answer = match self.graph.try_assume_guards(guards) {
            Ok(()) => Answer::Done,
            Err(refusal) => Answer::Refused(refusal.number()),
        };
        self.show(count, region);
        answer
    }

    // A retain, if the binding's types can say it.
    fn retained(
        &mut self,
        region: &mut [u64],
        marks: &mut [u64],
        keep: &[u8],
        mapping: &mut [u64],
    ) -> Option<Answer> {
        let keep: Option<Vec<bool>> = keep
            .iter()
            .map(|element| truth((*element).into()))
            .collect();
        let keep = keep?;
        if mapping.len() != self.graph.scalars.len() {
            return None;
        }
        MADE.set(MADE.get() + 1);
        let answer = match self.graph.try_retain(&keep) {
            Ok(ids) => {
                for (word, id) in mapping.iter_mut().zip(ids) {
                    *word = id as u64;
                }
                Answer::Kept(self.graph.scalars.len() as u64)
            }
            Err(refusal) => Answer::Refused(refusal.number()),
        };
        self.words.fill(0);
        self.show(0, region);
        self.show_marks(marks);
        Some(answer)
    }
}

impl Side for Binding {
    fn start(&mut self, region: &[u64]) {
        if self.graph.marks() > 0 || region != self.words {
            *self = Binding::new();
        }
    }

    fn call(&mut self, region: &mut [u64], call: &Call) -> Answer {
        let made = evaluated(call).or_else(|| {
            if self.holds(region) {
                self.made(region, call)
            } else {
                None
            }
        });
        match made {
            Some(answer) => {
                MADE.set(MADE.get() + 1);
                answer
            }
            None => InGraph.call(region, call),
        }
    }

    fn marking(&mut self, region: &mut [u64], marks: &mut [u64], call: Marking) -> Option<Answer> {
        let made = if self.holds_both(region, marks) {
            self.marked(region, marks, call)
        } else {
            None
        };
        made.or_else(|| InGraph.marking(region, marks, call))
    }

    fn retain(
        &mut self,
        region: &mut [u64],
        marks: &mut [u64],
        keep: &[u8],
        mapping: &mut [u64],
    ) -> Option<Answer> {
        let made = if self.holds_both(region, marks) {
            self.retained(region, marks, keep, mapping)
        } else {
            None
        };
        made.or_else(|| InGraph.retain(region, marks, keep, mapping))
    }

    fn guards(&mut self, region: &mut [u64], list: &GuardList) -> Option<Answer> {
        match bound_guards(list) {
            Some(guards) if self.holds(region) => Some(self.listed(region, &guards)),
            _ => InGraph.guards(region, list),
        }
    }

    fn list_function(&self) -> Option<ListFunction> {
        InGraph.list_function()
    }

    fn ready(&self, call: &Call) -> Option<Ready> {
        InGraph.ready(call)
    }

    fn takes(&self, _: &Call) -> bool {
        true
    }
}

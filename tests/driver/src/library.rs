// The proved library's side, through the functions that it exports.
use crate::call::{Answer, Call, ListFunction, Marking, Ready, Side};
use crate::guard_list::GuardList;
use crate::words::{UNTOUCHED, WORDS, halves, joined};

// The functions that have a twin for a caller that knows the region to be a graph.
#[derive(Clone, Copy)]
struct Tier {
    constant: unsafe extern "C" fn(*mut u64, usize, u64, u64, u64, u64) -> u64,
    input: unsafe extern "C" fn(*mut u64, usize, u64, u64, u64, u64, u64, u64, u64, u64) -> u64,
    effect: unsafe extern "C" fn(*mut u64, usize, u64, u64, u64) -> u64,
    unary: unsafe extern "C" fn(*mut u64, usize, u64, u64, u64, u64, u64) -> u64,
    binary: unsafe extern "C" fn(*mut u64, usize, u64, u64, u64, u64, u64) -> u64,
    slice: unsafe extern "C" fn(*mut u64, usize, u64, u64, u64) -> u64,
    concat: unsafe extern "C" fn(*mut u64, usize, u64, u64, u64, u64) -> u64,
    unsigned_range: unsafe extern "C" fn(*mut u64, usize, u64, u64, u64, u64, u64) -> u64,
    assume_guard: unsafe extern "C" fn(*mut u64, usize, u64, u64) -> u64,
    assume_guards: ListFunction,
    retain: Retain,
    mark: unsafe extern "C" fn(*const u64, usize, *mut u64, usize) -> u64,
    return_to: unsafe extern "C" fn(*mut u64, usize, *mut u64, usize, u64) -> u64,
    literal: Reader,
    resolve: unsafe extern "C" fn(*const u64, usize, u64) -> u64,
    node: Reader,
    guard: unsafe extern "C" fn(*const u64, usize, u64, u64, *mut u64, usize) -> u64,
}

// A call about one node that writes lent words.
type Reader = unsafe extern "C" fn(*const u64, usize, u64, *mut u64, usize) -> u64;

type Retain = unsafe extern "C" fn(
    *mut u64,
    usize,
    *mut u64,
    usize,
    *const u8,
    usize,
    *mut u64,
    usize,
) -> u64;

macro_rules! twins {
    ($($name:ident / $twin:ident ($($word:ident),*);)*) => {
        unsafe extern "C" {
            $(
                fn $name(g: *mut u64, len: usize, $($word: u64),*) -> u64;
                fn $twin(g: *mut u64, len: usize, $($word: u64),*) -> u64;
            )*
        }
    };
}

twins! {
    scalars_constant / scalars_constant_in_graph (code, width, low, high);
    scalars_input / scalars_input_in_graph
        (number, code, width, flag, min_low, min_high, max_low, max_high);
    scalars_effect / scalars_effect_in_graph (number, code, width);
    scalars_unary / scalars_unary_in_graph (code, width, operator, parameter, id);
    scalars_binary / scalars_binary_in_graph (code, width, operator, left, right);
    scalars_slice / scalars_slice_in_graph (id, offset, width);
    scalars_concat / scalars_concat_in_graph (high, low, low_width, width);
    scalars_unsigned_range / scalars_unsigned_range_in_graph
        (id, low_low, low_high, high_low, high_high);
    scalars_assume_guard / scalars_assume_guard_in_graph (condition, expected);
}

macro_rules! lists {
    ($($name:ident)*) => {
        unsafe extern "C" {
            $(
                fn $name(
                    g: *mut u64,
                    len: usize,
                    conditions: *const u64,
                    conditions_len: usize,
                    answers: *const u64,
                    answers_len: usize,
                ) -> u64;
            )*
        }
    };
}

lists! { scalars_assume_guards scalars_assume_guards_in_graph }

macro_rules! retains {
    ($($name:ident)*) => {
        unsafe extern "C" {
            $(
                fn $name(
                    g: *mut u64,
                    len: usize,
                    m: *mut u64,
                    m_len: usize,
                    keep: *const u8,
                    keep_len: usize,
                    mapping: *mut u64,
                    mapping_len: usize,
                ) -> u64;
            )*
        }
    };
}

retains! { scalars_retain scalars_retain_in_graph }

macro_rules! readers {
    ($($name:ident ($($word:ident),*);)*) => {
        unsafe extern "C" {
            $(
                fn $name(
                    g: *const u64,
                    len: usize,
                    $($word: u64,)*
                    out: *mut u64,
                    out_len: usize,
                ) -> u64;
            )*
        }
    };
}

readers! {
    scalars_literal (id);
    scalars_literal_in_graph (id);
    scalars_node (id);
    scalars_node_in_graph (id);
    scalars_guard (condition, expected);
    scalars_guard_in_graph (condition, expected);
}

unsafe extern "C" {
    fn scalars_mark(g: *const u64, len: usize, m: *mut u64, m_len: usize) -> u64;
    fn scalars_mark_in_graph(g: *const u64, len: usize, m: *mut u64, m_len: usize) -> u64;
    fn scalars_return_to(g: *mut u64, len: usize, m: *mut u64, m_len: usize, mark: u64) -> u64;
    fn scalars_return_to_in_graph(
        g: *mut u64,
        len: usize,
        m: *mut u64,
        m_len: usize,
        mark: u64,
    ) -> u64;
    fn scalars_is_marked(g: *const u64, len: usize, m: *const u64, m_len: usize) -> u64;
    fn scalars_resolve(g: *const u64, len: usize, id: u64) -> u64;
    fn scalars_resolve_in_graph(g: *const u64, len: usize, id: u64) -> u64;
    fn scalars_is_graph(g: *const u64, len: usize) -> u64;
    fn scalars_matches(
        operator: u64,
        expected: u64,
        host64: u64,
        left_low: u64,
        left_high: u64,
        right_low: u64,
        right_high: u64,
    ) -> u64;
    fn scalars_evaluate_unary(
        operator: u64,
        parameter: u64,
        low: u64,
        high: u64,
        out: *mut u64,
        out_len: usize,
    ) -> u64;
    fn scalars_evaluate_binary(
        operator: u64,
        code: u64,
        width: u64,
        left_low: u64,
        left_high: u64,
        right_low: u64,
        right_high: u64,
        out: *mut u64,
        out_len: usize,
    ) -> u64;
    fn scalars_mask(width: u64, out: *mut u64, out_len: usize) -> u64;
}

const ASKING: Tier = Tier {
    constant: scalars_constant,
    input: scalars_input,
    effect: scalars_effect,
    unary: scalars_unary,
    binary: scalars_binary,
    slice: scalars_slice,
    concat: scalars_concat,
    unsigned_range: scalars_unsigned_range,
    assume_guard: scalars_assume_guard,
    assume_guards: scalars_assume_guards,
    retain: scalars_retain,
    mark: scalars_mark,
    return_to: scalars_return_to,
    literal: scalars_literal,
    resolve: scalars_resolve,
    node: scalars_node,
    guard: scalars_guard,
};

const IN_GRAPH: Tier = Tier {
    constant: scalars_constant_in_graph,
    input: scalars_input_in_graph,
    effect: scalars_effect_in_graph,
    unary: scalars_unary_in_graph,
    binary: scalars_binary_in_graph,
    slice: scalars_slice_in_graph,
    concat: scalars_concat_in_graph,
    unsigned_range: scalars_unsigned_range_in_graph,
    assume_guard: scalars_assume_guard_in_graph,
    assume_guards: scalars_assume_guards_in_graph,
    retain: scalars_retain_in_graph,
    mark: scalars_mark_in_graph,
    return_to: scalars_return_to_in_graph,
    literal: scalars_literal_in_graph,
    resolve: scalars_resolve_in_graph,
    node: scalars_node_in_graph,
    guard: scalars_guard_in_graph,
};

// What a guard that is assumed and a return to a mark answer.
const DONE: u64 = 1 << 63;
// The answer where lent words have another number than what is to be written.
const WRONG_LENGTH: u64 = (1 << 63) + 1;

// The most words that are there of those lent, and the words after them, which no call may change.
const MOST: usize = 4096;
const PAST: usize = 16;

fn answer_of(number: u64) -> Answer {
    if number == DONE {
        return Answer::Done;
    }
    if number == WRONG_LENGTH {
        return Answer::WrongLength;
    }
    match u64::MAX - number {
        0 => Answer::None,
        refusal @ 1..=11 => Answer::Refused(refusal),
        _ => Answer::Id(number),
    }
}

// Lends so many words to a call that answers 1 where it has written as many as it has to. Else all must stay as they
// were, and the words past them always. Of a slice longer than `MOST` only the first words are there: a call looks at
// its length alone, and that these stay is seen too.
fn lent<const WRITTEN: usize>(
    room: usize,
    call: impl FnOnce(*mut u64, usize) -> u64,
) -> Result<[u64; WRITTEN], Answer> {
    let mut out = vec![UNTOUCHED; room.min(MOST) + PAST];
    let number = call(out.as_mut_ptr(), room);
    let is_written = number == 1 && room == WRITTEN;
    let written = if is_written { WRITTEN } else { 0 };
    if out[written..].iter().any(|word| *word != UNTOUCHED) {
        return Err(Answer::Spoilt);
    }
    match out.first_chunk() {
        Some(words) if is_written => Ok(*words),
        _ => Err(answer_of(number)),
    }
}

// The words, and after them some that no call may change.
fn with_words_after(words: &[u64]) -> Vec<u64> {
    let mut lent = vec![UNTOUCHED; words.len() + PAST];
    lent[..words.len()].copy_from_slice(words);
    lent
}

// The value in two lent words.
fn lent_value(room: usize, call: impl FnOnce(*mut u64, usize) -> u64) -> Answer {
    match lent(room, call) {
        Ok([low, high]) => Answer::Value(joined(low, high)),
        Err(answer) => answer,
    }
}

// Whether two values match, for each number that the call may have.
fn matches(op: u64, expected: u64, host64: u64, left: u128, right: u128) -> Answer {
    let ([a, b], [c, d]) = (halves(left), halves(right));
    // SAFETY: the function takes numbers alone.
    let number = unsafe { scalars_matches(op, expected, host64, a, b, c, d) };
    match number {
        0 | 1 => Answer::Is(number == 1),
        _ => answer_of(number),
    }
}

// The evaluators and the mask, which look at no region.
fn evaluated(call: &Call) -> Option<Answer> {
    // SAFETY: the lent words are passed whole, and else the functions take numbers alone.
    Some(match *call {
        Call::EvaluateUnary {
            op,
            parameter,
            value,
            room,
        } => {
            let [low, high] = halves(value);
            lent_value(room, |out, len| unsafe {
                scalars_evaluate_unary(op, parameter, low, high, out, len)
            })
        }
        Call::EvaluateBinary {
            op,
            ty,
            left,
            right,
            room,
        } => {
            let ([a, b], [c, d]) = (halves(left), halves(right));
            lent_value(room, |out, len| unsafe {
                scalars_evaluate_binary(op, ty.code, ty.width, a, b, c, d, out, len)
            })
        }
        Call::Mask { width, room } => {
            lent_value(room, |out, len| unsafe { scalars_mask(width, out, len) })
        }
        _ => return None,
    })
}

impl Tier {
    fn leaf(&self, call: &Call) -> Option<Ready> {
        Some(match *call {
            Call::Constant { ty, value } => {
                let [low, high] = halves(value);
                Ready::Four(self.constant, [ty.code, ty.width, low, high])
            }
            Call::Input { number, ty, range } => {
                // Any flag but 0 says that there is a range, and without one its words are not looked at.
                let [a, b] = range.map_or([number; 2], |range| halves(range.min as u128));
                let [c, d] = range.map_or([number; 2], |range| halves(range.max as u128));
                let flag = range.map_or(0, |_| number.max(1));
                let words = [number, ty.code, ty.width, flag, a, b, c, d];
                Ready::Eight(self.input, words)
            }
            Call::Effect { number, ty } => Ready::Three(self.effect, [number, ty.code, ty.width]),
            _ => return None,
        })
    }

    fn builder(&self, call: &Call) -> Option<Ready> {
        Some(match *call {
            Call::Unary {
                ty,
                op,
                parameter,
                id,
            } => Ready::Five(self.unary, [ty.code, ty.width, op, parameter, id]),
            Call::Binary {
                ty,
                op,
                left,
                right,
            } => Ready::Five(self.binary, [ty.code, ty.width, op, left, right]),
            Call::Slice { id, offset, width } => Ready::Three(self.slice, [id, offset, width]),
            Call::Concat {
                high,
                low,
                low_width,
                width,
            } => Ready::Four(self.concat, [high, low, low_width, width]),
            Call::UnsignedRange { id, low, high } => {
                let ([a, b], [c, d]) = (halves(low), halves(high));
                Ready::Five(self.unsigned_range, [id, a, b, c, d])
            }
            _ => return None,
        })
    }

    // A call that changes the region.
    fn ready(&self, call: &Call) -> Option<Ready> {
        match *call {
            Call::AssumeGuard {
                condition,
                expected,
            } => Some(Ready::Two(self.assume_guard, [condition, expected])),
            _ => self.leaf(call).or_else(|| self.builder(call)),
        }
    }

    // SAFETY: the caller of the twins makes the regions a graph with its marks. The slices are passed whole.
    unsafe fn retained(
        &self,
        region: &mut [u64],
        marks: &mut [u64],
        keep: &[u8],
        mapping: &mut [u64],
    ) -> Answer {
        let (g, len) = (region.as_mut_ptr(), region.len());
        let (m, m_len) = (marks.as_mut_ptr(), marks.len());
        let (list, list_len) = (keep.as_ptr(), keep.len());
        let (ids, ids_len) = (mapping.as_mut_ptr(), mapping.len());
        let number = unsafe { (self.retain)(g, len, m, m_len, list, list_len, ids, ids_len) };
        match answer_of(number) {
            Answer::Id(nodes) => Answer::Kept(nodes),
            other => other,
        }
    }

    // A list of guards. Its slices are lent with words after them, and all of these must stay.
    //
    // SAFETY: as for retain, of the graph's region alone.
    unsafe fn listed(&self, region: &mut [u64], list: &GuardList) -> Answer {
        let (g, len) = (region.as_mut_ptr(), region.len());
        let mut lent = [&list.conditions, &list.answers].map(|words| with_words_after(words));
        let before = lent.clone();
        let [conditions, answers] = lent.each_mut().map(|words| words.as_mut_ptr().cast_const());
        let [conditions_len, answers_len] = list.lengths();
        let call = self.assume_guards;
        let number = unsafe { call(g, len, conditions, conditions_len, answers, answers_len) };
        if lent != before {
            return Answer::Spoilt;
        }
        answer_of(number)
    }

    // SAFETY: as for retain.
    unsafe fn marking(&self, region: &mut [u64], marks: &mut [u64], call: Marking) -> Answer {
        let (g, len) = (region.as_mut_ptr(), region.len());
        let (m, m_len) = (marks.as_mut_ptr(), marks.len());
        let number = match call {
            Marking::IsMarked => unsafe { scalars_is_marked(g, len, m, m_len) },
            Marking::Mark => unsafe { (self.mark)(g, len, m, m_len) },
            Marking::ReturnTo(mark) => unsafe { (self.return_to)(g, len, m, m_len, mark) },
        };
        match (call, answer_of(number)) {
            (Marking::IsMarked, Answer::Id(is @ 0..2)) => Answer::Is(is == 1),
            (Marking::Mark, Answer::Id(mark)) => Answer::Mark(mark),
            (_, answer) => answer,
        }
    }

    // SAFETY: as for retain, of the graph's region alone.
    unsafe fn read(&self, region: &[u64], call: &Call) -> Option<Answer> {
        let (g, len) = (region.as_ptr(), region.len());
        Some(match *call {
            Call::Literal { id, room } => lent_value(room, |out, out_len| unsafe {
                (self.literal)(g, len, id, out, out_len)
            }),
            Call::Node { id, room } => lent::<WORDS>(room, |out, out_len| unsafe {
                (self.node)(g, len, id, out, out_len)
            })
            .map_or_else(|answer| answer, Answer::Node),
            Call::Guard {
                condition,
                expected,
                room,
            } => lent(room, |out, out_len| unsafe {
                (self.guard)(g, len, condition, expected, out, out_len)
            })
            .map_or_else(|answer| answer, Answer::Guard),
            Call::Resolve { id } => answer_of(unsafe { (self.resolve)(g, len, id) }),
            Call::IsGraph => Answer::Is(unsafe { scalars_is_graph(g, len) } == 1),
            _ => return None,
        })
    }

    // SAFETY: as for the calls that read.
    unsafe fn call(&self, region: &mut [u64], call: &Call) -> Answer {
        if let Some(ready) = self.ready(call) {
            return answer_of(unsafe { ready.make(region) });
        }
        match *call {
            Call::Matches {
                op,
                expected,
                host64,
                left,
                right,
            } => matches(op, expected, host64, left, right),
            _ => unsafe { self.read(region, call) }
                .or_else(|| evaluated(call))
                .expect("every call is one of these"),
        }
    }
}

// The functions that ask question 1 themselves.
pub struct Library;

impl Side for Library {
    fn call(&mut self, region: &mut [u64], call: &Call) -> Answer {
        // SAFETY: these functions ask nothing of their caller.
        unsafe { ASKING.call(region, call) }
    }

    fn marking(&mut self, region: &mut [u64], marks: &mut [u64], call: Marking) -> Option<Answer> {
        // SAFETY: these functions ask nothing of their caller.
        Some(unsafe { ASKING.marking(region, marks, call) })
    }

    fn retain(
        &mut self,
        region: &mut [u64],
        marks: &mut [u64],
        keep: &[u8],
        mapping: &mut [u64],
    ) -> Option<Answer> {
        // SAFETY: these functions ask nothing of their caller.
        Some(unsafe { ASKING.retained(region, marks, keep, mapping) })
    }

    fn guards(&mut self, region: &mut [u64], list: &GuardList) -> Option<Answer> {
        // SAFETY: these functions ask nothing of their caller.
        Some(unsafe { ASKING.listed(region, list) })
    }

    fn list_function(&self) -> Option<ListFunction> {
        Some(ASKING.assume_guards)
    }

    fn ready(&self, call: &Call) -> Option<Ready> {
        ASKING.ready(call)
    }

    fn takes(&self, _: &Call) -> bool {
        true
    }
}

// The twins for a caller that knows the region to be a graph; calls without a twin as the library has them.
pub struct InGraph;

impl Side for InGraph {
    fn call(&mut self, region: &mut [u64], call: &Call) -> Answer {
        // SAFETY: the caller made the region a graph.
        unsafe { IN_GRAPH.call(region, call) }
    }

    fn marking(&mut self, region: &mut [u64], marks: &mut [u64], call: Marking) -> Option<Answer> {
        // SAFETY: the caller made the regions a graph with its marks.
        Some(unsafe { IN_GRAPH.marking(region, marks, call) })
    }

    fn retain(
        &mut self,
        region: &mut [u64],
        marks: &mut [u64],
        keep: &[u8],
        mapping: &mut [u64],
    ) -> Option<Answer> {
        // SAFETY: the caller made the regions a graph with its marks.
        Some(unsafe { IN_GRAPH.retained(region, marks, keep, mapping) })
    }

    fn guards(&mut self, region: &mut [u64], list: &GuardList) -> Option<Answer> {
        // SAFETY: the caller made the region a graph.
        Some(unsafe { IN_GRAPH.listed(region, list) })
    }

    fn list_function(&self) -> Option<ListFunction> {
        Some(IN_GRAPH.assume_guards)
    }

    fn ready(&self, call: &Call) -> Option<Ready> {
        IN_GRAPH.ready(call)
    }

    fn takes(&self, _: &Call) -> bool {
        true
    }
}

//! The functions of the proved library, and the regions that they work on. All `unsafe` of this crate stands here.
use crate::types::{WORDS, halves};

/// The most nodes of a graph.
pub(crate) const NODES: usize = 512;
/// The words of a graph: the number of its nodes, and twelve for each.
const REGION: usize = 1 + WORDS * NODES;
/// The most guards of a list.
const GUARDS: usize = 32;
/// The most marks that stand.
const MOST: usize = 16;
/// The words of a mark: the number of its nodes, and an alias word for each node that there can be.
const SPAN: usize = 1 + NODES;
/// The words of the marks' region: the number of marks that stand, and the words of each.
const MARKS: usize = 1 + MOST * SPAN;

// An id and a word of the library are the same size, so a list of ids can be lent as one of words.
const _: () = assert!(size_of::<usize>() == size_of::<u64>());

mod exported {
    unsafe extern "C" {
        pub fn scalars_constant_in_graph(
            g: *mut u64,
            words: usize,
            code: u64,
            width: u64,
            low: u64,
            high: u64,
        ) -> u64;
        pub fn scalars_input_in_graph(
            g: *mut u64,
            words: usize,
            number: u64,
            code: u64,
            width: u64,
            flag: u64,
            min_low: u64,
            min_high: u64,
            max_low: u64,
            max_high: u64,
        ) -> u64;
        pub fn scalars_effect_in_graph(
            g: *mut u64,
            words: usize,
            number: u64,
            code: u64,
            width: u64,
        ) -> u64;
        pub fn scalars_unary_in_graph(
            g: *mut u64,
            words: usize,
            code: u64,
            width: u64,
            operator: u64,
            parameter: u64,
            id: u64,
        ) -> u64;
        pub fn scalars_binary_in_graph(
            g: *mut u64,
            words: usize,
            code: u64,
            width: u64,
            operator: u64,
            left: u64,
            right: u64,
        ) -> u64;
        pub fn scalars_slice_in_graph(
            g: *mut u64,
            words: usize,
            id: u64,
            offset: u64,
            width: u64,
        ) -> u64;
        pub fn scalars_concat_in_graph(
            g: *mut u64,
            words: usize,
            high: u64,
            low: u64,
            low_width: u64,
            width: u64,
        ) -> u64;
        pub fn scalars_unsigned_range_in_graph(
            g: *mut u64,
            words: usize,
            id: u64,
            low_low: u64,
            low_high: u64,
            high_low: u64,
            high_high: u64,
        ) -> u64;
        pub fn scalars_assume_guard_in_graph(
            g: *mut u64,
            words: usize,
            condition: u64,
            expected: u64,
        ) -> u64;
        pub fn scalars_assume_guards_in_graph(
            g: *mut u64,
            words: usize,
            conditions: *const u64,
            conditions_len: usize,
            answers: *const u64,
            answers_len: usize,
        ) -> u64;
        pub fn scalars_retain_in_graph(
            g: *mut u64,
            words: usize,
            m: *mut u64,
            m_words: usize,
            keep: *const u8,
            keep_len: usize,
            mapping: *mut u64,
            mapping_len: usize,
        ) -> u64;
        pub fn scalars_mark_in_graph(
            g: *const u64,
            words: usize,
            m: *mut u64,
            m_words: usize,
        ) -> u64;
        pub fn scalars_return_to_in_graph(
            g: *mut u64,
            words: usize,
            m: *mut u64,
            m_words: usize,
            mark: u64,
        ) -> u64;
        pub fn scalars_resolve_in_graph(g: *const u64, words: usize, id: u64) -> u64;
        pub fn scalars_literal_in_graph(
            g: *const u64,
            words: usize,
            id: u64,
            out: *mut u64,
            out_len: usize,
        ) -> u64;
        pub fn scalars_guard_in_graph(
            g: *const u64,
            words: usize,
            condition: u64,
            expected: u64,
            out: *mut u64,
            out_len: usize,
        ) -> u64;
        pub fn scalars_matches(
            operator: u64,
            expected: u64,
            host64: u64,
            left_low: u64,
            left_high: u64,
            right_low: u64,
            right_high: u64,
        ) -> u64;
        pub fn scalars_evaluate_unary(
            operator: u64,
            parameter: u64,
            low: u64,
            high: u64,
            out: *mut u64,
            out_len: usize,
        ) -> u64;
        pub fn scalars_evaluate_binary(
            operator: u64,
            code: u64,
            width: u64,
            left_low: u64,
            left_high: u64,
            right_low: u64,
            right_high: u64,
            out: *mut u64,
            out_len: usize,
        ) -> u64;
        pub fn scalars_mask(width: u64, out: *mut u64, out_len: usize) -> u64;
    }
}

fn zeros<const N: usize>() -> Box<[u64; N]> {
    let words: Result<Box<[u64; N]>, _> = vec![0; N].into_boxed_slice().try_into();
    words.expect("it has this length")
}

/// The words of the marks' region. They are made when a call first needs them, since most graphs have no marks, and begin
/// as zeros: no mark stands.
struct Marks(Option<Box<[u64; MARKS]>>);

impl Marks {
    fn lent(&mut self) -> &mut [u64; MARKS] {
        self.0.get_or_insert_with(zeros)
    }

    /// The number of marks that stand, and their words.
    fn standing(&self) -> &[u64] {
        match &self.0 {
            Some(words) => &words[..1 + SPAN * words[0] as usize],
            None => &[0],
        }
    }
}

impl Clone for Marks {
    /// Words past the marks that stand are free, so they are not copied.
    fn clone(&self) -> Self {
        let standing = self.standing();
        if standing[0] == 0 {
            return Marks(None);
        }
        let mut words = zeros::<MARKS>();
        words[..standing.len()].copy_from_slice(standing);
        Marks(Some(words))
    }
}

/// The words of a graph and of its marks. They begin as zeros, the empty graph with no mark, and the methods here alone
/// change them, each by one call of the library. The theorems `grown-graph` and `grown-marked`
/// (crates/meaning/proofs/Demand3.antt) say of every list of calls from there that the regions left pass question 1. So
/// this is always a graph with its marks, and the functions for a caller who knows that can be used, which do not ask.
#[derive(Clone)]
pub(crate) struct Region {
    graph: Box<[u64; REGION]>,
    marks: Marks,
}

/// A call that changes the graph's region.
macro_rules! change {
    ($region:expr, $function:ident, $($word:expr),*) => {
        // SAFETY: the region is a graph (see `Region`), lent whole and to nobody else, and the other arguments are numbers.
        unsafe { exported::$function($region.graph.as_mut_ptr(), REGION, $($word),*) }
    };
}

impl Region {
    pub fn empty() -> Self {
        Region {
            graph: zeros(),
            marks: Marks(None),
        }
    }

    pub fn count(&self) -> usize {
        self.graph[0] as usize
    }

    /// The number of nodes at each mark that stands.
    pub fn marks(&self) -> impl ExactSizeIterator<Item = usize> {
        let marks = self.marks.standing()[1..].chunks_exact(SPAN);
        marks.map(|words| words[0] as usize)
    }

    /// The words of a node below the count.
    pub fn node(&self, id: usize) -> &[u64; WORDS] {
        let first = 1 + WORDS * id;
        let words = &self.graph[first..first + WORDS];
        words.try_into().expect("it has this length")
    }

    pub fn constant(&mut self, (code, width): (u64, u64), value: u128) -> u64 {
        let (low, high) = halves(value);
        change!(self, scalars_constant_in_graph, code, width, low, high)
    }

    pub fn input(
        &mut self,
        number: u64,
        (code, width): (u64, u64),
        range: Option<(u128, u128)>,
    ) -> u64 {
        let (min, max) = range.unwrap_or_default();
        let ((a, b), (c, d)) = (halves(min), halves(max));
        let flag = range.is_some().into();
        change!(
            self,
            scalars_input_in_graph,
            number,
            code,
            width,
            flag,
            a,
            b,
            c,
            d
        )
    }

    pub fn effect(&mut self, number: u64, (code, width): (u64, u64)) -> u64 {
        change!(self, scalars_effect_in_graph, number, code, width)
    }

    pub fn unary(&mut self, ty: (u64, u64), (operator, parameter): (u64, u64), id: u64) -> u64 {
        change!(
            self,
            scalars_unary_in_graph,
            ty.0,
            ty.1,
            operator,
            parameter,
            id
        )
    }

    pub fn binary(&mut self, ty: (u64, u64), operator: u64, left: u64, right: u64) -> u64 {
        change!(
            self,
            scalars_binary_in_graph,
            ty.0,
            ty.1,
            operator,
            left,
            right
        )
    }

    pub fn slice(&mut self, id: u64, offset: u64, width: u64) -> u64 {
        change!(self, scalars_slice_in_graph, id, offset, width)
    }

    pub fn concat(&mut self, high: u64, low: u64, low_width: u64, width: u64) -> u64 {
        change!(self, scalars_concat_in_graph, high, low, low_width, width)
    }

    pub fn unsigned_range(&mut self, id: u64, low: u128, high: u128) -> u64 {
        let ((a, b), (c, d)) = (halves(low), halves(high));
        change!(self, scalars_unsigned_range_in_graph, id, a, b, c, d)
    }

    pub fn assume_guard(&mut self, condition: u64, expected: bool) -> u64 {
        change!(
            self,
            scalars_assume_guard_in_graph,
            condition,
            expected.into()
        )
    }

    /// Of a list that is too long the first guards are lent, one more than a list holds: the library refuses it by its
    /// length, before it looks at any guard, as it would the whole. So the number of the refusal and its place among the
    /// questions are the library's, and two arrays suffice for a list of any length.
    pub fn assume_guards(&mut self, guards: &[(usize, bool)]) -> u64 {
        let (mut conditions, mut answers) = ([0; GUARDS + 1], [0; GUARDS + 1]);
        let places = conditions.iter_mut().zip(&mut answers);
        for ((condition, answer), (id, expected)) in places.zip(guards) {
            (*condition, *answer) = (*id as u64, (*expected).into());
        }
        let length = guards.len().min(GUARDS + 1);
        let (conditions, answers) = (&conditions[..length], &answers[..length]);
        // SAFETY: the region is a graph (see `Region`), lent whole and to nobody else. The two lists are lent whole too, are
        // not written, and may have any content and length.
        unsafe {
            exported::scalars_assume_guards_in_graph(
                self.graph.as_mut_ptr(),
                REGION,
                conditions.as_ptr(),
                length,
                answers.as_ptr(),
                length,
            )
        }
    }

    pub fn retain(&mut self, keep: &[bool], mapping: &mut [usize]) -> u64 {
        let (list, length) = (keep.as_ptr().cast::<u8>(), keep.len());
        let (ids, ids_length) = (mapping.as_mut_ptr().cast::<u64>(), mapping.len());
        let marks = self.marks.lent().as_mut_ptr();
        // SAFETY: the regions are a graph with its marks (see `Region`). The four slices are lent whole and do not overlap.
        // A bool is a byte of 0 or 1, and a usize has the size of a u64 (asserted above); every u64 is a usize.
        unsafe {
            exported::scalars_retain_in_graph(
                self.graph.as_mut_ptr(),
                REGION,
                marks,
                MARKS,
                list,
                length,
                ids,
                ids_length,
            )
        }
    }

    pub fn mark(&mut self) -> u64 {
        let (graph, marks) = (self.graph.as_ptr(), self.marks.lent().as_mut_ptr());
        // SAFETY: the regions are a graph with its marks (see `Region`), lent whole and to nobody else, and the graph's is
        // not written.
        unsafe { exported::scalars_mark_in_graph(graph, REGION, marks, MARKS) }
    }

    pub fn return_to(&mut self, mark: u64) -> u64 {
        let (graph, marks) = (self.graph.as_mut_ptr(), self.marks.lent().as_mut_ptr());
        // SAFETY: the regions are a graph with its marks (see `Region`), lent whole and to nobody else; any number will do.
        unsafe { exported::scalars_return_to_in_graph(graph, REGION, marks, MARKS, mark) }
    }

    pub fn resolve(&self, id: u64) -> u64 {
        // SAFETY: the region is a graph (see `Region`), lent whole, and the call writes nothing.
        unsafe { exported::scalars_resolve_in_graph(self.graph.as_ptr(), REGION, id) }
    }

    /// The call's answer, and the two words that it may have written.
    pub fn literal(&self, id: u64) -> (u64, [u64; 2]) {
        // SAFETY: the region is a graph (see `Region`), lent whole, and only the lent words are written.
        written(|out, length| unsafe {
            exported::scalars_literal_in_graph(self.graph.as_ptr(), REGION, id, out, length)
        })
    }

    /// The call's answer, and the words of the guard that it may have written.
    pub fn guard(&self, condition: u64, expected: bool) -> (u64, [u64; 5]) {
        let expected = expected.into();
        // SAFETY: the region is a graph (see `Region`), lent whole, and only the lent words are written.
        written(|out, length| unsafe {
            exported::scalars_guard_in_graph(
                self.graph.as_ptr(),
                REGION,
                condition,
                expected,
                out,
                length,
            )
        })
    }
}

/// Lends so many words to a call, and gives its answer with them.
fn written<const N: usize>(call: impl FnOnce(*mut u64, usize) -> u64) -> (u64, [u64; N]) {
    let mut out = [0; N];
    let answer = call(out.as_mut_ptr(), N);
    (answer, out)
}

pub(crate) fn matches(operator: u64, expected: bool, host64: bool, left: u128, right: u128) -> u64 {
    let ((a, b), (c, d)) = (halves(left), halves(right));
    // SAFETY: the call takes numbers alone, and asks nothing of its caller.
    unsafe { exported::scalars_matches(operator, expected.into(), host64.into(), a, b, c, d) }
}

pub(crate) fn evaluate_unary((operator, parameter): (u64, u64), value: u128) -> (u64, [u64; 2]) {
    let (low, high) = halves(value);
    // SAFETY: the call asks nothing of its caller, and writes only the lent words.
    written(|out, length| unsafe {
        exported::scalars_evaluate_unary(operator, parameter, low, high, out, length)
    })
}

pub(crate) fn evaluate_binary(
    operator: u64,
    (code, width): (u64, u64),
    left: u128,
    right: u128,
) -> (u64, [u64; 2]) {
    let ((a, b), (c, d)) = (halves(left), halves(right));
    // SAFETY: the call asks nothing of its caller, and writes only the lent words.
    written(|out, length| unsafe {
        exported::scalars_evaluate_binary(operator, code, width, a, b, c, d, out, length)
    })
}

pub(crate) fn mask(width: u64) -> (u64, [u64; 2]) {
    // SAFETY: the call asks nothing of its caller, and writes only the lent words.
    written(|out, length| unsafe { exported::scalars_mask(width, out, length) })
}

// The marks' region, written from docs/CALLS.md: its words, question 1 of both regions, and what each call about marks
// answers and leaves by the words alone.
use crate::call::{Answer, Call, Marking, Side};
use crate::compare::shown;
use crate::guard_list::GuardList;
use crate::lists::take_on;
use crate::native::{Graph, opened};
use crate::original::{Original, retain_region};
use crate::words::{ALIAS, LIMIT, UNTOUCHED, alias_word, nodes_of, start_of};
use std::fmt::Write as _;

// The words of the region, the most marks, and the words of a mark: its number of nodes, and an alias word for each
// node that there can be.
pub const MARKS: usize = 8209;
pub const MOST: usize = 16;
const SPAN: usize = 1 + LIMIT;

// The word where a mark starts.
pub fn mark_start(mark: usize) -> usize {
    1 + SPAN * mark
}

// A region without marks. What stands in its free words must stay.
pub fn no_marks() -> Vec<u64> {
    let mut marks = vec![UNTOUCHED; MARKS];
    marks[0] = 0;
    marks
}

// A line for the number of marks that stand, and one for each: its number of nodes, and their alias words.
pub fn described_marks(marks: &[u64]) -> String {
    let standing = marks.first().copied().unwrap_or(0);
    let mut text = format!("  {} words, {} marks\n", marks.len(), shown(&[standing]));
    let words = marks.get(1..).unwrap_or(&[]).chunks(SPAN);
    for (mark, words) in words.enumerate().take(standing.min(MOST as u64) as usize) {
        let aliases = &words[1..][..(words[0] as usize).min(words.len() - 1)];
        let _ = writeln!(
            text,
            "  mark {mark}: {}",
            shown(&words[..1 + aliases.len()])
        );
    }
    text
}

// Is it a mark's number of nodes, at most so many, and alias words of so many nodes?
fn is_mark(words: &[u64], limit: u64) -> bool {
    let nodes = words[0];
    nodes <= limit
        && words[1..]
            .iter()
            .zip(0..nodes)
            .all(|(alias, id)| *alias == 0 || (id + 1 < *alias && *alias <= nodes))
}

// Can these be the marks of a graph with so many nodes?
pub fn are_marks(marks: &[u64], count: u64) -> bool {
    if marks.len() != MARKS || marks[0] > MOST as u64 {
        return false;
    }
    let standing = marks[0] as usize;
    let limits = (1..standing).map(|next| marks[mark_start(next)]);
    limits
        .chain([count])
        .zip(marks[1..].chunks(SPAN))
        .take(standing)
        .all(|(limit, mark)| is_mark(mark, limit))
}

// Question 1 of both regions.
pub fn is_marked(region: &[u64], marks: &[u64]) -> bool {
    nodes_of(region).is_some() && are_marks(marks, region[0])
}

// Writes the next mark: so many nodes, with these alias words.
fn write_mark(marks: &mut [u64], aliases: impl ExactSizeIterator<Item = u64>) -> Answer {
    let mark = marks[0];
    let at = mark_start(mark as usize);
    marks[at] = aliases.len() as u64;
    for (word, alias) in marks[at + 1..].iter_mut().zip(aliases) {
        *word = alias;
    }
    marks[0] = mark + 1;
    Answer::Mark(mark)
}

// Writes the next mark as one of the original's graph.
pub fn write_mark_of(graph: &Graph, marks: &mut [u64]) -> Answer {
    let ids = 0..graph.scalars.len();
    write_mark(marks, ids.map(|id| alias_word(opened::alias(graph, id))))
}

// Writes the next mark as one of a region.
fn mark(region: &[u64], marks: &mut [u64]) -> Answer {
    if marks[0] == MOST as u64 {
        return Answer::Refused(9);
    }
    let ids = 0..region[0] as usize;
    write_mark(marks, ids.map(|id| region[start_of(id) + ALIAS]))
}

fn return_to(region: &mut [u64], marks: &mut [u64], mark: u64) -> Answer {
    if mark >= marks[0] {
        return Answer::Refused(10);
    }
    let words = &marks[mark_start(mark as usize)..][..SPAN];
    let nodes = words[0] as usize;
    for id in 0..nodes {
        region[start_of(id) + ALIAS] = words[1 + id];
    }
    region[0] = words[0];
    region[start_of(nodes)..].fill(0);
    marks[0] = mark + 1;
    Answer::Done
}

// What a call about marks answers and leaves.
pub fn by_words(region: &mut [u64], marks: &mut [u64], call: Marking) -> Answer {
    match (is_marked(region, marks), call) {
        (is, Marking::IsMarked) => Answer::Is(is),
        (false, _) => Answer::Refused(1),
        (true, Marking::Mark) => mark(region, marks),
        (true, Marking::ReturnTo(number)) => return_to(region, marks, number),
    }
}

// What a retain answers and leaves.
pub fn retain_by_words(
    region: &mut [u64],
    marks: &mut [u64],
    keep: &[u8],
    mapping: &mut [u64],
) -> Answer {
    if !is_marked(region, marks) {
        return Answer::Refused(1);
    }
    let answer = retain_region(region, keep, mapping);
    if matches!(answer, Answer::Kept(_)) {
        marks[0] = 0;
    }
    answer
}

// The original on a graph filled from the region, and marks by their words.
pub struct Filled;

impl Side for Filled {
    fn call(&mut self, region: &mut [u64], call: &Call) -> Answer {
        Original.call(region, call)
    }

    fn marking(&mut self, region: &mut [u64], marks: &mut [u64], call: Marking) -> Option<Answer> {
        Some(by_words(region, marks, call))
    }

    fn retain(
        &mut self,
        region: &mut [u64],
        marks: &mut [u64],
        keep: &[u8],
        mapping: &mut [u64],
    ) -> Option<Answer> {
        Some(retain_by_words(region, marks, keep, mapping))
    }

    fn guards(&mut self, region: &mut [u64], list: &GuardList) -> Option<Answer> {
        Some(take_on(region, list))
    }

    fn takes(&self, _: &Call) -> bool {
        true
    }
}

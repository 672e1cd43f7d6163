// Retains: which nodes to keep, and the comparison of answer, region and mapping.
use crate::call::Answer;
use crate::compare::{Both, Comparison, REFUSALS, described, differing, shown};
use crate::generate::Source;
use crate::native::{Graph, Scalar};
use crate::original::{self, retain_region};
use crate::words::{UNTOUCHED, encode, operands};
use std::mem;

// The keep list, and the number of words lent for the mapping.
#[derive(Clone, Debug)]
pub struct Retain {
    pub keep: Vec<u8>,
    pub mapping: usize,
    kind: &'static str,
}

impl Retain {
    pub fn new(keep: Vec<u8>, kind: &'static str) -> Self {
        let mapping = keep.len();
        Retain {
            keep,
            mapping,
            kind,
        }
    }

    // With slices that need not fit.
    pub fn of_lengths(keep: Vec<u8>, mapping: usize) -> Self {
        Retain {
            keep,
            mapping,
            kind: "any lengths",
        }
    }

    pub fn is_refused(&self) -> bool {
        self.kind.starts_with("refused")
    }
}

// The kinds of retains that a whole run must have compared on graphs, with their answers.
pub const KINDS: [&str; 10] = [
    "all kept",
    "none kept",
    "a closed set kept",
    "refused 6: keep one short",
    "refused 6: keep one long",
    "refused 6: mapping one short",
    "refused 6: mapping one long",
    "refused 6: both one long",
    "refused 6: an element past 1",
    "refused 6: an operand dropped",
];

// The operands that are nodes: in a region that is no graph others may stand.
fn used(scalars: &[Scalar], id: usize) -> Vec<usize> {
    let mut used = operands(&scalars[id].operation);
    used.retain(|operand| *operand < scalars.len());
    used
}

// Keeps the operands of the kept nodes.
fn close(scalars: &[Scalar], keep: &mut [u8]) {
    for id in (0..scalars.len()).rev() {
        if keep[id] == 1 {
            for operand in used(scalars, id) {
                keep[operand] = 1;
            }
        }
    }
}

impl Source {
    // A set of nodes with their operands, of a random density.
    fn closed(&mut self, scalars: &[Scalar]) -> Vec<u8> {
        let times = self.random.pick(&[2, 3, 10, 60]);
        let mut keep: Vec<u8> = scalars
            .iter()
            .map(|_| self.random.once_in(times).into())
            .collect();
        close(scalars, &mut keep);
        keep
    }

    // Drops an operand of a kept node, if one has any.
    fn opened(&mut self, scalars: &[Scalar], mut keep: Vec<u8>) -> Option<Vec<u8>> {
        let kept = (0..scalars.len()).filter(|id| keep[*id] == 1);
        let all: Vec<usize> = kept.flat_map(|id| used(scalars, id)).collect();
        if all.is_empty() {
            return None;
        }
        keep[self.random.pick(&all)] = 0;
        Some(keep)
    }

    // A set with an element that is not 0 or 1.
    fn past_one(&mut self, mut keep: Vec<u8>) -> Option<Vec<u8>> {
        if keep.is_empty() {
            return None;
        }
        let at = self.random.below(keep.len());
        keep[at] = self.random.pick(&[2, 3, 128, 255]);
        Some(keep)
    }

    // Slices that have not one element for each node.
    fn other_lengths(&mut self, keep: &[u8]) -> Vec<Retain> {
        let longer: Vec<u8> = keep
            .iter()
            .copied()
            .chain([self.random.below(2) as u8])
            .collect();
        let with = |keep: &[u8], mapping, kind| Retain {
            keep: keep.to_vec(),
            mapping,
            kind,
        };
        let mut all = vec![
            with(&longer, keep.len(), "refused 6: keep one long"),
            with(keep, keep.len() + 1, "refused 6: mapping one long"),
            with(&longer, keep.len() + 1, "refused 6: both one long"),
        ];
        if let Some((_, shorter)) = keep.split_last() {
            all.push(with(shorter, keep.len(), "refused 6: keep one short"));
            all.push(with(keep, shorter.len(), "refused 6: mapping one short"));
        }
        all
    }

    // A retain that is not refused.
    pub fn retain(&mut self, scalars: &[Scalar]) -> Retain {
        match self.random.below(12) {
            0 => Retain::new(vec![1; scalars.len()], "all kept"),
            1 => Retain::new(vec![0; scalars.len()], "none kept"),
            _ => Retain::new(self.closed(scalars), "a closed set kept"),
        }
    }

    // A retain that keeps every node, or of ten nodes about nine.
    pub fn retain_most(&mut self, scalars: &[Scalar]) -> Retain {
        if self.random.once_in(2) {
            return Retain::new(vec![1; scalars.len()], "all kept");
        }
        let mut keep: Vec<u8> = scalars
            .iter()
            .map(|_| (!self.random.once_in(10)).into())
            .collect();
        close(scalars, &mut keep);
        Retain::new(keep, "a closed set kept")
    }

    // Some of each kind.
    pub fn retains(&mut self, scalars: &[Scalar]) -> Vec<Retain> {
        let mut all: Vec<Retain> = (0..4).map(|_| self.retain(scalars)).collect();
        let keep = self.closed(scalars);
        all.extend(self.other_lengths(&keep));
        if let Some(spoilt) = self.past_one(keep.clone()) {
            all.push(Retain::new(spoilt, "refused 6: an element past 1"));
        }
        if let Some(opened) = self.opened(scalars, keep) {
            all.push(Retain::new(opened, "refused 6: an operand dropped"));
        }
        all
    }
}

impl Comparison {
    fn count_retain(&mut self, retain: &Retain, answer: Answer) {
        let name = match answer {
            Answer::Refused(6) | Answer::Kept(_) => retain.kind,
            Answer::Refused(number) => REFUSALS[number as usize],
            _ => "spoilt",
        };
        let counts = self.retains.entry(self.class).or_default();
        *counts.entry(name).or_default() += 1;
    }

    // Puts a retain to the tier of the list, and compares answer, regions and mapping with these.
    pub fn settle_retain(
        &mut self,
        both: Both,
        retain: &Retain,
        right: Answer,
        right_mapping: &[u64],
    ) -> Result<Answer, String> {
        let Both { region, marks, .. } = both;
        let before = region.to_vec();
        let mut mapping = vec![UNTOUCHED; retain.mapping];
        let side = self.tier(right);
        let Some(found) = side.retain(region, marks, &retain.keep, &mut mapping) else {
            region.copy_from_slice(&self.right);
            return Ok(right);
        };
        let is_same = found == right && region == self.right && mapping == right_mapping;
        if is_same && marks == both.right_marks {
            self.count_retain(retain, right);
            return Ok(right);
        }
        let texts = [&before, &self.right, &region.to_vec()].map(|words| described(words));
        let mappings = [right_mapping, &mapping].map(shown);
        let differing = differing(both.right_marks, marks);
        Err(format!(
            "retain: {retain:?}\non:\n{}original: {right:?}\n{}mapping: {}\ncompared: {found:?}\n{}mapping: {}\nmarks' region:\n{differing}",
            texts[0], texts[1], mappings[0], texts[2], mappings[1]
        ))
    }

    // As `settle_retain`, where no mark stands.
    fn settle_unmarked(
        &mut self,
        region: &mut [u64],
        retain: &Retain,
        right: Answer,
        right_mapping: &[u64],
    ) -> Result<Answer, String> {
        let [mut marks, right_marks] = mem::take(&mut self.unmarked);
        let both = Both {
            region,
            marks: &mut marks,
            right_marks: &right_marks,
        };
        let settled = self.settle_retain(both, retain, right, right_mapping);
        self.unmarked = [marks, right_marks];
        settled
    }

    // A retain on any region.
    pub fn retain(&mut self, region: &mut [u64], retain: &Retain) -> Result<Answer, String> {
        let mut mapping = vec![UNTOUCHED; retain.mapping];
        self.place(region);
        let right = retain_region(&mut self.right, &retain.keep, &mut mapping);
        self.settle_unmarked(region, retain, right, &mapping)
    }

    // A retain on a region that calls have grown, and on the graph that the original has grown beside it.
    pub fn retain_grown(
        &mut self,
        region: &mut [u64],
        graph: &mut Graph,
        retain: &Retain,
    ) -> Result<Answer, String> {
        let mut mapping = vec![UNTOUCHED; retain.mapping];
        let right = original::retain(graph, &retain.keep, &mut mapping);
        encode(graph, &mut self.right);
        self.settle_unmarked(region, retain, right, &mapping)
    }
}

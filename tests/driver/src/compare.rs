// Puts a call to both sides, compares the answers and every word, and counts. A difference is made small and told.
use crate::call::{Answer, Call, Side};
use crate::classes;
use crate::guard_list::GuardList;
use crate::lists::{Lists, take_on};
use crate::marks::no_marks;
use crate::meter;
use crate::native::Graph;
use crate::original::{Original, apply, write};
use crate::words::{ALIAS, LIMIT, REGION, WORDS, start_of};
use std::collections::BTreeMap;
use std::fmt::Write as _;
use std::ops::Range;

// What was compared in one class.
#[derive(Default)]
pub struct Counts {
    pub regions: u64,
    pub calls: u64,
    pub answers: BTreeMap<&'static str, u64>,
    pub kinds: BTreeMap<&'static str, u64>,
}

// What is put to both sides.
#[derive(Clone, Debug)]
pub enum Asked {
    Call(Call),
    List(GuardList),
}

// What the two sides answer or perform differently.
pub struct Difference {
    pub region: Vec<u64>,
    pub asked: Asked,
    pub right: (Answer, Vec<u64>),
    pub found: (Answer, Vec<u64>),
    pub is_twin: bool,
}

// The regions that a call is handed, and what the marks' must be after it.
pub struct Both<'a> {
    pub region: &'a mut [u64],
    pub marks: &'a mut [u64],
    pub right_marks: &'a [u64],
}

pub struct Comparison {
    pub side: Box<dyn Side>,
    // The side's tier for regions that are known to be graphs, and whether the list at hand is put to it.
    pub twin: Option<Box<dyn Side>>,
    pub is_twin: bool,
    // Whether each call is put to both tiers.
    pub has_both: bool,
    pub counts: BTreeMap<&'static str, Counts>,
    // The retains by class and kind.
    pub retains: BTreeMap<&'static str, BTreeMap<&'static str, u64>>,
    // The lists of guards.
    pub lists: Lists,
    pub class: &'static str,
    // The words as the original has them: before a call those of the region, after it those that must be there.
    pub right: Vec<u64>,
    // A region without marks for the retains of other lists: as it is lent, and as it must stay.
    pub unmarked: [Vec<u64>; 2],
}

pub const REFUSALS: [&str; 12] = [
    "refused 0",
    "refused 1",
    "refused 2",
    "refused 3",
    "refused 4",
    "refused 5",
    "refused 6",
    "refused 7",
    "refused 8",
    "refused 9",
    "refused 10",
    "refused 11",
];

// What a guard that is assumed has done. A node that gets an alias is narrowed by a new Refine or by one that stood
// there.
pub const NARROWED: [&str; 3] = [
    "done, nothing narrowed",
    "done, narrowed",
    "done, narrowed by an old node",
];

fn narrowed() -> &'static str {
    let (stored, aliases) = (meter::stored(), meter::aliases());
    match aliases {
        0 => NARROWED[0],
        _ if aliases == stored => NARROWED[1],
        _ => NARROWED[2],
    }
}

// A guard that met question 7 when a node had an alias already.
pub const TAKEN_BACK: &str = "refused 7, aliases taken back";

// The answer's name, where the region had so many nodes.
fn name_of(count: u64, call: &Call, answer: Answer) -> &'static str {
    match (call, answer) {
        (Call::Resolve { id }, Answer::Id(other)) if *id == other => "resolved to itself",
        (Call::Resolve { .. }, Answer::Id(_)) => "resolved",
        (_, Answer::Id(id)) if id >= count => "new node",
        (_, Answer::Id(_)) => "old node",
        (_, Answer::Value(_)) => "value",
        (_, Answer::Kept(_)) => "kept",
        (_, Answer::Mark(_)) => "mark",
        (_, Answer::None) => "none",
        (_, Answer::Refused(number)) => REFUSALS[number as usize],
        (_, Answer::Done) => narrowed(),
        (_, Answer::Guard(_)) => "guard",
        (_, Answer::Node(_)) => "node's words",
        (_, Answer::WrongLength) => "wrong length",
        (Call::Matches { .. }, Answer::Is(true)) => "matches",
        (Call::Matches { .. }, Answer::Is(false)) => "does not match",
        (_, Answer::Is(true)) => "is a graph",
        (_, Answer::Is(false)) => "is no graph",
        (_, Answer::Spoilt) => "spoilt",
    }
}

// Small numbers in decimal, others in hex.
pub fn shown(words: &[u64]) -> String {
    let texts: Vec<String> = words
        .iter()
        .map(|word| match word {
            0..10_000 => format!("{word}"),
            _ => format!("{word:#x}"),
        })
        .collect();
    texts.join(" ")
}

// A line for the count, one for each node, and one for each twelve words past them that are not 0.
pub fn described(region: &[u64]) -> String {
    let mut text = format!("  {} words", region.len());
    let Some((count, rest)) = region.split_first() else {
        return text + "\n";
    };
    let _ = writeln!(text, ", count {}", shown(&[*count]));
    for (id, words) in rest.chunks(WORDS).enumerate() {
        let is_node = *count <= LIMIT as u64 && *count > id as u64;
        if is_node || words.iter().any(|word| *word != 0) {
            let _ = writeln!(text, "  words from {}: {}", start_of(id), shown(words));
        }
    }
    text
}

// A line for each word in which those compared differ from the original's.
pub fn differing(right: &[u64], found: &[u64]) -> String {
    let mut text = String::new();
    for (at, (right, found)) in right.iter().zip(found).enumerate() {
        if right != found {
            let [right, found] = [right, found].map(|word| shown(&[*word]));
            let _ = writeln!(text, "word {at}: original {right}, compared {found}");
        }
    }
    text
}

impl Difference {
    pub fn described(&self) -> String {
        let mut text = format!("call: {:?}\non:\n{}", self.asked, described(&self.region));
        let tier = if self.is_twin { " in graph" } else { "" };
        let _ = writeln!(text, "original: {:?}", self.right.0);
        let _ = writeln!(text, "compared{tier}: {:?}", self.found.0);
        text + &differing(&self.right.1, &self.found.1)
    }
}

impl Comparison {
    pub fn new(side: Box<dyn Side>, twin: Option<Box<dyn Side>>) -> Self {
        Comparison {
            side,
            twin,
            is_twin: false,
            has_both: false,
            counts: BTreeMap::new(),
            retains: BTreeMap::new(),
            lists: Lists::default(),
            class: "",
            right: vec![],
            unmarked: [no_marks(), no_marks()],
        }
    }

    // What follows is about another region.
    pub fn start(&mut self, class: &'static str, region: &[u64]) {
        meter::count_as(classes::kind_of(class));
        self.class = class;
        self.counts.entry(class).or_default().regions += 1;
        self.place(region);
        self.side.start(region);
        if let Some(twin) = &mut self.twin {
            twin.start(region);
        }
    }

    // The region's words are these now.
    pub fn place(&mut self, region: &[u64]) {
        self.right.clear();
        self.right.extend_from_slice(region);
    }

    fn count(&mut self, call: &Call, answer: Answer, before: u64) {
        let name = match answer {
            Answer::None if self.right.first().is_some_and(|now| *now != before) => {
                "none, nodes kept"
            }
            Answer::Refused(7) if meter::aliases() > 0 => TAKEN_BACK,
            Answer::Refused(7) if meter::stored() > 0 => "refused 7, nodes taken back",
            Answer::Refused(8) if meter::stored() > 0 => "refused 8, nodes taken back",
            _ => name_of(before, call, answer),
        };
        let counts = self.counts.entry(self.class).or_default();
        counts.calls += 1;
        *counts.answers.entry(name).or_default() += 1;
        *counts.kinds.entry(call.kind()).or_default() += 1;
    }

    // The words before the call that left them as they are now: it can only have added nodes to this count, and given
    // an alias to nodes that had none.
    fn before(&self, count: u64) -> Vec<u64> {
        let mut before = self.right.clone();
        for id in meter::aliased() {
            before[start_of(id) + ALIAS] = 0;
        }
        if before.first().is_some_and(|now| *now != count) {
            let [start, end] = [count, before[0]].map(|count| start_of(count as usize));
            before[start..end].fill(0);
            before[0] = count;
        }
        before
    }

    // Puts the call to the tier of the list. What is no graph is not put to the twin.
    fn ask(&mut self, region: &mut [u64], call: &Call, right: Answer) -> Answer {
        match &mut self.twin {
            Some(twin) if self.is_twin && right != Answer::Refused(1) => twin.call(region, call),
            _ => self.side.call(region, call),
        }
    }

    // The tier for a call on both regions, by what it must answer. What fails question 1 is not put to the twin.
    pub fn tier(&mut self, right: Answer) -> &mut dyn Side {
        match &mut self.twin {
            Some(twin) if self.is_twin && right != Answer::Refused(1) => twin.as_mut(),
            _ => self.side.as_mut(),
        }
    }

    // Compares the call on the region with what the original answers and leaves in `self.right`; if so wanted, in both
    // tiers.
    fn settle(
        &mut self,
        region: &mut [u64],
        call: &Call,
        right: Answer,
        count: u64,
    ) -> Result<Answer, String> {
        let has_other = self.has_both && self.twin.is_some() && call.has_twin();
        let other = (has_other && right != Answer::Refused(1)).then(|| region.to_vec());
        self.settle_one(region, call, right, count)?;
        if let Some(mut region) = other {
            self.is_twin = !self.is_twin;
            self.settle_one(&mut region, call, right, count)?;
            self.is_twin = !self.is_twin;
        }
        Ok(right)
    }

    // Compares the call on the region in the tier of the list.
    fn settle_one(
        &mut self,
        region: &mut [u64],
        call: &Call,
        right: Answer,
        count: u64,
    ) -> Result<Answer, String> {
        let found = self.ask(region, call, right);
        if found == right && region == self.right {
            self.count(call, right, count);
            return Ok(right);
        }
        let difference = Difference {
            region: self.before(count),
            asked: Asked::Call(*call),
            right: (right, self.right.clone()),
            found: (found, region.to_vec()),
            is_twin: self.is_twin,
        };
        Err(self.smaller(difference).described())
    }

    // A call on the region that was placed, from which the original's maps are filled.
    pub fn call(&mut self, region: &mut [u64], call: &Call) -> Result<Answer, String> {
        let count = self.right.first().copied().unwrap_or(0);
        let right = Original.call(&mut self.right, call);
        self.settle(region, call, right, count)
    }

    // A call on a region that calls have grown, and on the graph that the original has grown beside it.
    pub fn call_grown(
        &mut self,
        region: &mut [u64],
        graph: &mut Graph,
        call: &Call,
    ) -> Result<Answer, String> {
        let count = graph.scalars.len();
        let right = apply(graph, call);
        write(graph, count, call, &mut self.right);
        self.settle(region, call, right, count as u64)
    }

    // The difference on this region, if there is one where the maps are filled from it.
    fn differs(&mut self, region: &[u64], asked: &Asked) -> Option<Difference> {
        let mut right = region.to_vec();
        let mut found = region.to_vec();
        let right_answer = match asked {
            Asked::Call(call) => Original.call(&mut right, call),
            Asked::List(list) => take_on(&mut right, list),
        };
        let found_answer = match asked {
            Asked::Call(call) => self.ask(&mut found, call, right_answer),
            Asked::List(list) => self.tier(right_answer).guards(&mut found, list)?,
        };
        (right_answer != found_answer || right != found).then(|| Difference {
            region: region.to_vec(),
            asked: asked.clone(),
            right: (right_answer, right),
            found: (found_answer, found),
            is_twin: self.is_twin,
        })
    }

    // The difference without the last node, if it is still one.
    fn without_last(&mut self, difference: &Difference) -> Option<Difference> {
        let count = difference.region.first().copied()?;
        if difference.region.len() != REGION || !(1..=LIMIT as u64).contains(&count) {
            return None;
        }
        let mut region = difference.region.clone();
        region[0] = count - 1;
        region[start_of(count as usize - 1)..][..WORDS].fill(0);
        self.differs(&region, &difference.asked)
    }

    // The difference with these words zero, if they are not already and it is still one.
    fn without_words(&mut self, difference: &Difference, at: Range<usize>) -> Option<Difference> {
        let words = difference.region.get(at.clone())?;
        if words.iter().all(|word| *word == 0) {
            return None;
        }
        let mut region = difference.region.clone();
        region[at].fill(0);
        self.differs(&region, &difference.asked)
    }

    // The difference with a guard less in its list, if it is one of a list and still one.
    fn without_guard(&mut self, difference: &Difference) -> Option<Difference> {
        let Asked::List(list) = &difference.asked else {
            return None;
        };
        (0..list.conditions.len()).find_map(|place| {
            let list = list.without(place)?;
            self.differs(&difference.region, &Asked::List(list))
        })
    }

    // The difference with as few guards, nodes and words as keep it.
    pub fn smaller(&mut self, mut difference: Difference) -> Difference {
        let mut is_smaller = true;
        while is_smaller {
            is_smaller = false;
            while let Some(other) = self.without_guard(&difference) {
                difference = other;
                is_smaller = true;
            }
            while let Some(other) = self.without_last(&difference) {
                difference = other;
                is_smaller = true;
            }
            for size in [WORDS, 1] {
                for start in (1..difference.region.len()).step_by(size) {
                    if let Some(other) = self.without_words(&difference, start..start + size) {
                        difference = other;
                        is_smaller = true;
                    }
                }
            }
        }
        difference
    }
}

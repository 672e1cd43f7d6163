// What a comparison has met: streams, records and answers, and bad records by what was wrong with them.
use crate::call::Answer;
use crate::program::{MODES, Mode};
use crate::record::{BINARY, Bad, CONSTANT, GUARD, INPUT, RETAIN, UNARY, WHYS, Why};
use std::collections::BTreeMap;

// Streams of one kind.
#[derive(Default)]
pub struct Kind {
    pub streams: u64,
    pub generated: u64,
    pub answered: u64,
    pub bad: u64,
}

#[derive(Default)]
pub struct Counts {
    kinds: BTreeMap<&'static str, Kind>,
    lines: BTreeMap<&'static str, u64>,
    bads: BTreeMap<(Why, u8), u64>,
    modes: BTreeMap<Mode, u64>,
}

const REFUSALS: [&str; 9] = [
    "",
    "refused 1",
    "refused 2",
    "refused 3",
    "refused 4",
    "refused 5",
    "refused 6",
    "refused 7",
    "refused 8",
];

// The answers that a whole run must have met. A program's own region is always a graph, so that nothing is refused 1.
const ANSWERS: [&str; 11] = [
    "id",
    "none",
    "done",
    "kept",
    REFUSALS[2],
    REFUSALS[3],
    REFUSALS[4],
    REFUSALS[5],
    REFUSALS[6],
    REFUSALS[7],
    REFUSALS[8],
];

// Tags past the last are counted as one.
const OTHER_TAG: u8 = RETAIN + 1;

fn line_of(answer: Answer) -> &'static str {
    match answer {
        Answer::Id(_) => "id",
        Answer::None => "none",
        Answer::Done => "done",
        Answer::Kept(_) => "kept",
        Answer::Refused(number) => REFUSALS[number as usize],
        other => unreachable!("{other:?} answers no record"),
    }
}

// The tags whose records can be bad for that reason.
fn tags_of(why: Why) -> std::ops::RangeInclusive<u8> {
    match why {
        Why::EndInHeader | Why::EndInBody => CONSTANT..=RETAIN,
        Why::Length => CONSTANT..=GUARD,
        Why::Type | Why::TypeWidth => CONSTANT..=BINARY,
        Why::Operator => UNARY..=BINARY,
        Why::Parameter => UNARY..=UNARY,
        Why::Flag => INPUT..=INPUT,
        Why::Expected => GUARD..=GUARD,
        Why::Tag => OTHER_TAG..=OTHER_TAG,
    }
}

impl Counts {
    pub fn answered(&mut self, answer: Answer) {
        *self.lines.entry(line_of(answer)).or_default() += 1;
    }

    // A stream of that kind.
    pub fn stream(
        &mut self,
        kind: &'static str,
        generated: usize,
        answered: u64,
        bad: Option<Bad>,
    ) {
        let counts = self.kinds.entry(kind).or_default();
        counts.streams += 1;
        counts.generated += generated as u64;
        counts.answered += answered;
        counts.bad += u64::from(bad.is_some());
        if let Some(Bad { tag, why }) = bad {
            let tag = if tag == 0 {
                OTHER_TAG
            } else {
                tag.min(OTHER_TAG)
            };
            *self.bads.entry((why, tag)).or_default() += 1;
        }
    }

    pub fn ran(&mut self, mode: Mode) {
        *self.modes.entry(mode).or_default() += 1;
    }

    fn bad(&self, why: Why, tag: u8) -> u64 {
        self.bads.get(&(why, tag)).copied().unwrap_or_default()
    }

    fn total(&self) -> Kind {
        let mut total = Kind::default();
        for kind in self.kinds.values() {
            total.streams += kind.streams;
            total.generated += kind.generated;
            total.answered += kind.answered;
            total.bad += kind.bad;
        }
        total
    }

    // What a whole run should have met, and this one has not.
    pub fn missing(&self) -> Vec<String> {
        let answers = ANSWERS
            .iter()
            .filter(|name| !self.lines.contains_key(*name));
        let mut missing: Vec<String> = answers.map(|name| name.to_string()).collect();
        for (why, name) in WHYS {
            let never = tags_of(why).filter(|tag| self.bad(why, *tag) == 0);
            missing.extend(never.map(|tag| format!("bad {name} of tag {tag}")));
        }
        missing
    }

    fn print_kinds(&self) {
        let total = self.total();
        let rows = self.kinds.iter().map(|(name, kind)| (*name, kind));
        println!(
            "{:16}{:>9}{:>12}{:>12}{:>9}",
            "kind", "streams", "generated", "answered", "bad"
        );
        for (name, kind) in rows.chain([("all", &total)]) {
            let Kind {
                streams,
                generated,
                answered,
                bad,
            } = kind;
            println!("{name:16}{streams:>9}{generated:>12}{answered:>12}{bad:>9}");
        }
    }

    // Bad records: a row for each reason, a column for each tag.
    fn print_bads(&self) {
        print!("{:28}", "bad record by tag");
        for tag in CONSTANT..=RETAIN {
            print!("{tag:>7}");
        }
        println!("{:>7}", "other");
        for (why, name) in WHYS {
            print!("{name:28}");
            for tag in CONSTANT..=OTHER_TAG {
                print!("{:>7}", self.bad(why, tag));
            }
            println!();
        }
    }

    pub fn print(&self) {
        self.print_kinds();
        println!();
        let total = self.total();
        println!("{:28}{:>9}", "line", "times");
        for (name, times) in &self.lines {
            println!("{name:28}{times:>9}");
        }
        println!("{:28}{:>9}", "bad record", total.bad);
        println!("{:28}{:>9}\n", "nodes", total.streams);
        self.print_bads();
        println!("\n{:40}{:>9}", "run", "times");
        for (mode, name) in MODES {
            let times = self.modes.get(&mode).copied().unwrap_or_default();
            println!("{name:40}{times:>9}");
        }
    }
}

// What was compared, as text, and what a whole run must have met.
use crate::call::{KINDS, LISTED};
use crate::choices::CHOICES;
use crate::classes::{
    DAMAGED, EDGES, FULL, GROWN, GUARDED, LENGTH, OTHER, PASSING, Rounds, SWEPT, kind_of,
};
use crate::compare::{Comparison, Counts, NARROWED, TAKEN_BACK};
use crate::guard_list::GUARDS;
use crate::list_edges::LISTS_EDGES;
use crate::list_rounds::{LISTS_FULL, LISTS_GROWN, LISTS_MARKED, LISTS_NO_GRAPH, LISTS_OTHER};
use crate::lists::{LIST_DONE, LIST_FACTS, LIST_FAULTS, LIST_KIND, LIST_REFUSED, Lists};
use crate::mark_regions::{MARK_LENGTHS, MARK_WORDS};
use crate::marked::{MARKED, MARKINGS, RETURNED};
use crate::meter::{Kind, hits};
use crate::numbers::{ANY_EMPTY, ANY_GROWN, ANY_NO_GRAPH, ANY_OTHER, VALUES};
use crate::regions::WORD_KINDS;
use crate::retains;
use crate::sites::{Reach, sites};
use std::collections::BTreeMap;

const CLASSES: [(&str, &str); 24] = [
    (EDGES, "the edges of document 01"),
    (SWEPT, "one node's words through all their limits"),
    (GROWN, "grown from zeros"),
    (GUARDED, "grown from zeros, for guards"),
    (FULL, "grown until full, and on"),
    (OTHER, "regions that no calls could have grown"),
    (DAMAGED, "one word changed, no graph"),
    (PASSING, "one word changed, still a graph"),
    (LENGTH, "another length"),
    NUMBERED[0],
    NUMBERED[1],
    NUMBERED[2],
    NUMBERED[3],
    NUMBERED[4],
    NUMBERED[5],
    WITH_MARKS[0],
    WITH_MARKS[1],
    WITH_MARKS[2],
    WITH_LISTS[0],
    WITH_LISTS[1],
    WITH_LISTS[2],
    WITH_LISTS[3],
    WITH_LISTS[4],
    WITH_LISTS[5],
];

// The classes of calls with any numbers.
const NUMBERED: [(&str, &str); 6] = [
    (CHOICES, "any numbers: every choice about the limits"),
    (ANY_GROWN, "any numbers: on grown graphs"),
    (ANY_EMPTY, "any numbers: on the empty graph"),
    (ANY_OTHER, "any numbers: on other graphs"),
    (ANY_NO_GRAPH, "any numbers: on no graph"),
    (VALUES, "evaluators and mask"),
];

// The classes with marks.
const WITH_MARKS: [(&str, &str); 3] = [
    (MARKED, "marks: grown from zeros"),
    (MARK_WORDS, "marks: any words"),
    (MARK_LENGTHS, "marks: another length"),
];

// The classes with lists of guards.
const WITH_LISTS: [(&str, &str); 6] = [
    (LISTS_EDGES, "lists of guards: every length and place"),
    (LISTS_GROWN, "lists of guards: grown from zeros"),
    (LISTS_FULL, "lists of guards: grown until full"),
    (LISTS_MARKED, "lists of guards: between marks"),
    (LISTS_OTHER, "lists of guards: on other regions"),
    (LISTS_NO_GRAPH, "lists of guards: on no graph"),
];

// The answers that a whole run must have met, by class.
const MET: [(&str, &[&str]); 8] = [
    (
        EDGES,
        &[
            "none, nodes kept",
            "refused 7",
            "refused 7, nodes taken back",
            TAKEN_BACK,
            "refused 8, nodes taken back",
        ],
    ),
    (
        GUARDED,
        &[
            NARROWED[0],
            NARROWED[1],
            NARROWED[2],
            "guard",
            "matches",
            "does not match",
            "resolved",
            "refused 3",
            "refused 4",
        ],
    ),
    (
        GROWN,
        &[
            "new node",
            "old node",
            "value",
            "none",
            "resolved to itself",
            "refused 2",
            "refused 3",
            "refused 4",
            "refused 5",
            "refused 8, nodes taken back",
            "is a graph",
            "resolved",
            NARROWED[0],
            NARROWED[1],
            "guard",
        ],
    ),
    (
        FULL,
        &[
            "new node",
            "old node",
            "none",
            "refused 7",
            "refused 7, nodes taken back",
            TAKEN_BACK,
            "refused 8, nodes taken back",
            NARROWED[1],
        ],
    ),
    (
        OTHER,
        &[
            "new node",
            "old node",
            "value",
            "none",
            "none, nodes kept",
            "resolved",
            "resolved to itself",
            "refused 1",
            "refused 2",
            "refused 3",
            "refused 4",
            "refused 5",
            "refused 7",
            "refused 7, nodes taken back",
            TAKEN_BACK,
            "refused 8",
            "refused 8, nodes taken back",
            NARROWED[0],
            NARROWED[1],
            NARROWED[2],
            "guard",
            "matches",
            "does not match",
        ],
    ),
    (DAMAGED, &["refused 1", "is no graph"]),
    (PASSING, &["new node", "old node", "none", "is a graph"]),
    (LENGTH, &["refused 1", "is no graph"]),
];

// The same for the classes of calls with any numbers, which a program has not.
const MET_NUMBERED: [(&str, &[&str]); 6] = [
    (
        CHOICES,
        &[
            "refused 1",
            "refused 2",
            "refused 3",
            "refused 4",
            "refused 5",
            "wrong length",
            "node's words",
            "guard",
        ],
    ),
    (
        ANY_GROWN,
        &[
            "refused 2",
            "refused 3",
            "refused 4",
            "refused 5",
            "wrong length",
            "node's words",
            "value",
            "none",
            "guard",
            "resolved",
            "new node",
            "old node",
        ],
    ),
    (
        ANY_EMPTY,
        &[
            "refused 2",
            "refused 3",
            "refused 4",
            "refused 5",
            "new node",
        ],
    ),
    (
        ANY_OTHER,
        &[
            "refused 2",
            "refused 3",
            "refused 4",
            "refused 5",
            "wrong length",
            "node's words",
            "guard",
            "resolved",
        ],
    ),
    (
        ANY_NO_GRAPH,
        &["refused 1", "is no graph", "value", "wrong length"],
    ),
    (
        VALUES,
        &["value", "none", "refused 2", "refused 4", "wrong length"],
    ),
];

// The same for the classes with marks, which a program has not either.
const MET_WITH_MARKS: [(&str, &[&str]); 3] = [
    (
        MARKED,
        &[
            "is marked",
            "mark",
            RETURNED[0],
            RETURNED[1],
            RETURNED[2],
            NARROWED[0],
            NARROWED[1],
            NARROWED[2],
            TAKEN_BACK,
            "new node",
            "old node",
            "none",
            "resolved",
            "refused 2",
            "refused 3",
            "refused 4",
            "refused 5",
            "refused 7",
            "refused 9",
            "refused 10",
        ],
    ),
    (
        MARK_WORDS,
        &[
            "is marked",
            "is not marked",
            "mark",
            RETURNED[0],
            RETURNED[1],
            "refused 1",
            "refused 9",
            "refused 10",
        ],
    ),
    (MARK_LENGTHS, &["is not marked", "refused 1"]),
];

// The same for the classes with lists of guards, beside what their lists themselves must be answered.
const MET_WITH_LISTS: [(&str, &[&str]); 6] = [
    (LISTS_EDGES, &["refused 1", LIST_DONE[3]]),
    (LISTS_GROWN, &["new node", "old node", "none", LIST_DONE[3]]),
    (LISTS_FULL, &[LIST_DONE[3]]),
    (
        LISTS_MARKED,
        &["mark", RETURNED[0], RETURNED[1], LIST_DONE[2]],
    ),
    (LISTS_OTHER, &[LIST_DONE[3]]),
    (LISTS_NO_GRAPH, &["refused 1"]),
];

fn print_classes(counts: &BTreeMap<&'static str, Counts>) {
    println!("| class | regions | calls | answers |");
    println!("|---|---|---|---|");
    for (class, name) in CLASSES {
        let Some(counts) = counts.get(class) else {
            continue;
        };
        let answers: Vec<String> = counts
            .answers
            .iter()
            .map(|(name, count)| format!("{name} {count}"))
            .collect();
        let (regions, calls) = (counts.regions, counts.calls);
        println!("| {name} | {regions} | {calls} | {} |", answers.join(", "));
    }
    println!();
}

fn print_kinds(counts: &BTreeMap<&'static str, Counts>) {
    let columns: Vec<&str> = KINDS.into_iter().chain([LIST_KIND]).collect();
    println!("| class | {} |", columns.join(" | "));
    println!("|{}", "---|".repeat(columns.len() + 1));
    for (class, name) in CLASSES {
        let Some(counts) = counts.get(class) else {
            continue;
        };
        let calls = columns.iter().map(|kind| counts.kinds.get(kind));
        let calls: Vec<String> = calls
            .map(|calls| calls.copied().unwrap_or(0).to_string())
            .collect();
        println!("| {name} | {} |", calls.join(" | "));
    }
    println!();
}

fn print_retains(retains: &BTreeMap<&'static str, BTreeMap<&'static str, u64>>) {
    println!("| class | retains | by kind |");
    println!("|---|---|---|");
    for (class, name) in CLASSES {
        let Some(kinds) = retains.get(class) else {
            continue;
        };
        let texts: Vec<String> = kinds
            .iter()
            .map(|(kind, count)| format!("{kind} {count}"))
            .collect();
        let all: u64 = kinds.values().sum();
        println!("| {name} | {all} | {} |", texts.join("; "));
    }
    println!();
}

fn print_damages(damages: &[[u64; 2]]) {
    println!("| word changed | regions | no graph then |");
    println!("|---|---|---|");
    for (kind, [all, failed]) in WORD_KINDS.iter().zip(damages) {
        println!("| {kind} | {all} | {failed} |");
    }
    println!();
}

fn print_sites() {
    println!("| site | text | hits on grown graphs | on other regions | reached |");
    println!("|---|---|---|---|---|");
    for (number, site) in sites().enumerate() {
        let [grown, other] = [Kind::Grown, Kind::Other].map(|kind| hits(kind, number));
        let reach = match site.reach {
            Reach::Grown => "grown".to_string(),
            Reach::Other(reason) => format!("other: {reason}"),
            Reach::Never(reason) => format!("never: {reason}"),
        };
        // A bar would end the table's cell.
        let (name, text) = (site.name(), site.text().replace('|', "\\|"));
        println!("| {name} | `{text}` | {grown} | {other} | {reach} |");
    }
    println!();
}

// The sites that were not come to where they must be, and those that were where it is said that they can't be.
fn wrong_sites() -> Vec<String> {
    let mut wrong = vec![];
    for (number, site) in sites().enumerate() {
        let [grown, other] = [Kind::Grown, Kind::Other].map(|kind| hits(kind, number) > 0);
        let (is_met, is_surprise) = match site.reach {
            Reach::Grown => (grown, false),
            Reach::Other(_) => (other, grown),
            Reach::Never(_) => (true, grown || other),
        };
        if !is_met {
            wrong.push(site.name());
        }
        if is_surprise {
            wrong.push(format!("a reason not to come to {}", site.name()));
        }
    }
    wrong
}

// The calls and the guards on regions of a kind.
fn print_guards(counts: &BTreeMap<&'static str, Counts>, kind: Kind, name: &str) {
    let of_kind = || {
        let counts = counts.iter().filter(|(class, _)| kind_of(class) == kind);
        counts.map(|(_, counts)| counts)
    };
    let calls: u64 = of_kind().map(|counts| counts.calls).sum();
    let sum = |answer: &str| -> u64 {
        let answers = of_kind().filter_map(|counts| counts.answers.get(answer));
        answers.sum()
    };
    let [nothing, new, old] = NARROWED.map(sum);
    let back = sum(TAKEN_BACK);
    println!(
        "On {name}: {calls} calls, of these {} guards that narrow ({old} by an old node), {nothing} that narrow nothing, {back} refused 7 after an alias was set",
        new + old
    );
}

// The calls and retains of some classes, and how many of the calls had one of these answers.
fn sum_of(comparison: &Comparison, classes: &[&str], answers: &[&str]) -> [u64; 3] {
    let counts = || {
        classes
            .iter()
            .filter_map(|class| comparison.counts.get(class))
    };
    let retains = classes
        .iter()
        .filter_map(|class| comparison.retains.get(class));
    let answered =
        counts().flat_map(|counts| answers.iter().filter_map(|name| counts.answers.get(name)));
    [
        counts().map(|counts| counts.calls).sum(),
        retains.flat_map(|kinds| kinds.values()).sum(),
        answered.sum(),
    ]
}

fn print_marks(comparison: &Comparison) {
    let lists = |answers: &[&str]| sum_of(comparison, &[MARKED], answers)[2];
    let [calls, retains, marks] = sum_of(comparison, &[MARKED], &["mark"]);
    println!(
        "In lists with marks: {calls} calls and {retains} retains; of the calls {marks} marks, {} returns ({} that change nothing, {} that take back an alias to an old node), {} refused 9, {} refused 10",
        lists(&RETURNED),
        lists(&RETURNED[..1]),
        lists(&RETURNED[2..]),
        lists(&["refused 9"]),
        lists(&["refused 10"]),
    );
    let other = |answers: &[&str]| sum_of(comparison, &[MARK_WORDS, MARK_LENGTHS], answers);
    let [calls, retains, refused] = other(&["refused 1"]);
    println!(
        "On other regions with marks: {calls} calls and {retains} retains; of the calls {refused} refused 1, {} marks, {} returns, {} refused 9, {} refused 10",
        other(&["mark"])[2],
        other(&RETURNED)[2],
        other(&["refused 9"])[2],
        other(&["refused 10"])[2],
    );
}

fn print_lists(lists: &Lists) {
    println!("| guards in a random list | lists | not refused |");
    println!("|---|---|---|");
    for (length, [all, done]) in &lists.lengths {
        let more = if *length > GUARDS + 1 { " or more" } else { "" };
        println!("| {length}{more} | {all} | {done} |");
    }
    println!();
    println!("| of the random lists | lists |");
    println!("|---|---|");
    for fact in LIST_FACTS {
        println!(
            "| {fact} | {} |",
            lists.facts.get(fact).copied().unwrap_or(0)
        );
    }
    println!();
}

pub fn print(rounds: &Rounds) {
    let counts = &rounds.comparison.counts;
    print_classes(counts);
    print_kinds(counts);
    print_retains(&rounds.comparison.retains);
    print_damages(&rounds.damages);
    print_lists(&rounds.comparison.lists);
    print_sites();
    let calls: u64 = counts.values().map(|counts| counts.calls).sum();
    let kinds = rounds.comparison.retains.values();
    let retains: u64 = kinds.flat_map(|kinds| kinds.values()).sum();
    print_guards(counts, Kind::Grown, "grown graphs");
    print_guards(counts, Kind::Other, "other regions");
    println!("With any numbers: {} of the calls", of_numbered(counts));
    print_marks(&rounds.comparison);
    let Lists { lists, singles, .. } = rounds.comparison.lists;
    println!(
        "Lists of guards: {lists} lists, and {singles} single guards of the library beside them"
    );
    println!("{calls} calls and {retains} retains compared, no difference");
}

// The calls with any numbers.
fn of_numbered(counts: &BTreeMap<&'static str, Counts>) -> u64 {
    let numbered = NUMBERED.iter().filter_map(|(class, _)| counts.get(class));
    numbered.map(|counts| counts.calls).sum()
}

// The kinds of calls that a class must have met and has not.
fn missing_kinds(class: &str, counts: &Counts, kinds: &[&str]) -> Vec<String> {
    let is_missing = |kind: &&&str| !counts.kinds.contains_key(**kind);
    let kinds = kinds.iter().filter(is_missing);
    kinds.map(|kind| format!("{class}: {kind}")).collect()
}

// The kinds of retains that were not met on grown or on other regions. A program has none.
fn missing_retains(comparison: &Comparison) -> Vec<String> {
    let is_met = |class, kind: &str| {
        let kinds = comparison.retains.get(class);
        kinds.is_some_and(|kinds| kinds.contains_key(kind))
    };
    let mut missing = vec![];
    for class in [GROWN, OTHER, MARKED, MARK_WORDS] {
        let kinds = retains::KINDS.iter().filter(|kind| !is_met(class, kind));
        missing.extend(kinds.map(|kind| format!("{class}: {kind}")));
    }
    missing.retain(|_| !comparison.retains.is_empty());
    missing
}

// What the classes with marks must have met and have not.
fn missing_marks(comparison: &Comparison) -> Vec<String> {
    let mut missing = vec![];
    for (class, names) in MET_WITH_MARKS {
        missing.extend(missing_of(comparison, class, names, &MARKINGS));
    }
    missing.extend(missing_of(comparison, MARKED, &[], &KINDS[..LISTED]));
    missing
}

// What the lists of guards must have met and have not.
pub fn missing_lists(comparison: &Comparison) -> Vec<String> {
    let mut missing = vec![];
    for (class, names) in MET_WITH_LISTS {
        missing.extend(missing_of(comparison, class, names, &[LIST_KIND]));
    }
    // Between marks a graph is hardly ever full.
    for class in [LISTS_EDGES, LISTS_GROWN, LISTS_FULL, LISTS_OTHER] {
        let names = [
            &LIST_DONE[..3],
            &LIST_FAULTS,
            &LIST_REFUSED[0],
            &LIST_REFUSED[1],
        ];
        missing.extend(missing_of(comparison, class, &names.concat(), &[]));
    }
    for class in [LISTS_EDGES, LISTS_FULL, LISTS_OTHER] {
        missing.extend(missing_of(comparison, class, &LIST_REFUSED[2], &[]));
    }
    let Lists { facts, lengths, .. } = &comparison.lists;
    let facts = LIST_FACTS.iter().filter(|fact| !facts.contains_key(*fact));
    missing.extend(facts.map(|fact| format!("lists: {fact}")));
    let is_done = |length: &usize| lengths.get(length).is_some_and(|[_, done]| *done > 0);
    let lengths = (0..=GUARDS).filter(|length| !is_done(length));
    missing.extend(lengths.map(|length| format!("lists of {length} guards, not refused")));
    missing
}

// What a class must have met and has not.
fn missing_of(comparison: &Comparison, class: &str, names: &[&str], kinds: &[&str]) -> Vec<String> {
    let none = Counts::default();
    let counts = comparison.counts.get(class).unwrap_or(&none);
    let is_missing = |name: &&&str| !counts.answers.contains_key(**name);
    let names = names.iter().filter(is_missing);
    let mut missing: Vec<String> = names.map(|name| format!("{class}: {name}")).collect();
    missing.extend(missing_kinds(class, counts, kinds));
    missing
}

// What was never met, of all that a whole run must have.
pub fn missing(rounds: &Rounds) -> Vec<String> {
    let comparison = &rounds.comparison;
    let mut missing = vec![];
    for (class, names) in MET {
        missing.extend(missing_of(comparison, class, names, &KINDS[..LISTED]));
    }
    for (class, names) in MET_NUMBERED {
        // Values are of the last kinds, but for the node.
        let first = if class == VALUES { LISTED + 1 } else { 0 };
        if rounds.source.has_numbers {
            missing.extend(missing_of(comparison, class, names, &KINDS[first..]));
        }
    }
    if rounds.source.has_numbers {
        missing.extend(missing_marks(comparison));
        missing.extend(missing_lists(comparison));
    }
    missing.extend(missing_retains(comparison));
    missing.extend(wrong_sites());
    missing
}

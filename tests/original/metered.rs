// What the metered copy of the original has more than the original: a way in to its private parts, and lines that tell
// the meter of each entry into a builder, each node stored and each alias set.
use crate::adapt::Change;

pub const OPENED: &str = "
pub mod opened {
    use super::{Graph, Scalar, ScalarId};

    // A graph with both maps filled: the lowest id for equal keys, and these aliases.
    pub fn filled(scalars: Vec<Scalar>, aliases: &[(ScalarId, ScalarId)]) -> Graph {
        let mut graph = Graph {
            scalars,
            ..Graph::default()
        };
        for (id, scalar) in graph.scalars.iter().enumerate() {
            let key = (scalar.ty, scalar.range, scalar.operation.clone());
            graph.interned.entry(key).or_insert(id);
        }
        graph.aliases.extend(aliases.iter().copied());
        graph
    }

    // Takes back the nodes past these, each with a key of its own, and the aliases of those that had none. Calls
    // change nothing else.
    pub fn put_back(graph: &mut Graph, count: usize, aliased: &[ScalarId]) {
        let count = count.min(graph.scalars.len());
        for scalar in graph.scalars.drain(count..) {
            let key = (scalar.ty, scalar.range, scalar.operation);
            graph.interned.remove(&key);
        }
        for id in aliased {
            graph.aliases.remove(id);
        }
    }

    pub fn alias(graph: &Graph, id: ScalarId) -> Option<ScalarId> {
        graph.aliases.get(&id).copied()
    }

    pub fn has_same_maps(a: &Graph, b: &Graph) -> bool {
        a.interned == b.interned && a.aliases == b.aliases
    }
}
";

// The first lines of the six functions that cost a unit, the line where a node is stored, and the one where an alias
// is set.
const ENTRIES: [(&str, usize, &str); 6] = [
    ("native.rs", 248, "if self.scalars[value].ty == ty {"),
    ("native.rs", 273, "let value = self.resolve(value);"),
    ("native.rs", 330, "let left = self.resolve(left);"),
    ("native.rs", 614, "let value = self.resolve(value);"),
    ("native.rs", 691, "let high = self.resolve(high);"),
    ("modular.rs", 7, "let ty = ScalarType::Bits(width);"),
];
const STORE: (&str, usize, &str) = ("native.rs", 206, "self.scalars.push(Scalar {");
const ALIAS: (&str, usize, &str) = ("assume.rs", 39, "self.aliases.insert(id, next);");

// The line after a call of the meter.
fn metered((file, line, text): (&'static str, usize, &str), call: &str) -> Change {
    Change {
        file,
        line,
        from: text.to_string(),
        to: format!("crate::meter::{call}; {text}"),
    }
}

pub fn limits() -> Vec<Change> {
    let mut changes: Vec<Change> = ENTRIES.map(|entry| metered(entry, "enter()")).into();
    changes.push(metered(STORE, "store(self.scalars.len())"));
    changes.push(metered(ALIAS, "alias(id)"));
    changes
}

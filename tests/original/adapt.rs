// Adapts the original to one module: its files inlined, some lines changed, and a module that opens private parts.
// ORIGINAL is the folder that holds the original's crates, by default ../shared/docs/src beside the repository.
use std::path::{Path, PathBuf};
use std::{env, fs};

const SOURCE: &str = "crates/vmlab-hv-tcg-ir/src/native";

// The graph's own files. The others are not there, or need files that are not there.
const KEPT: [&str; 4] = ["assume", "bitfield", "linear", "modular"];

// A change to a line of the original: the text that stands there once, and what comes in its place.
pub struct Change {
    pub file: &'static str,
    pub line: usize,
    pub from: String,
    pub to: String,
}

fn read(path: &Path) -> String {
    println!("cargo::rerun-if-changed={}", path.display());
    fs::read_to_string(path).unwrap_or_else(|error| panic!("{}: {error}", path.display()))
}

// The text of a file with its changes made, each on the line as the changes before it left it.
fn changed(file: &str, text: &str, changes: &[Change]) -> String {
    let mut lines: Vec<String> = text.lines().map(str::to_string).collect();
    for change in changes.iter().filter(|change| change.file == file) {
        let Change { line, from, to, .. } = change;
        let text = &mut lines[line - 1];
        assert_eq!(
            text.matches(from).count(),
            1,
            "{file}:{line}: once `{from}` in `{text}`"
        );
        *text = text.replacen(from, to, 1);
    }
    lines.join("\n") + "\n"
}

// A line of the original, or what stands for it.
fn adapted(line: &str, folder: &Path, changes: &[Change]) -> String {
    let words = line.trim_start_matches("pub ");
    if line.starts_with("//!") {
        return String::new();
    }
    let Some(name) = words
        .strip_prefix("mod ")
        .and_then(|rest| rest.strip_suffix(';'))
    else {
        return format!("{line}\n");
    };
    if !KEPT.contains(&name) {
        return String::new();
    }
    let file = format!("{name}.rs");
    let text = changed(&file, &read(&folder.join(&file)), changes);
    format!("pub mod {name} {{\n{text}}}\n")
}

// The folder that a variable names, or this one, from the package's.
pub fn folder(variable: &str, default: &str) -> PathBuf {
    println!("cargo::rerun-if-env-changed={variable}");
    let package = PathBuf::from(env::var("CARGO_MANIFEST_DIR").expect("set by cargo"));
    package.join(env::var(variable).unwrap_or_else(|_| default.to_string()))
}

// Writes the module to OUT_DIR, as a file of that name.
pub fn adapt(name: &str, opened: &str, changes: &[Change]) {
    let folder = folder("ORIGINAL", "../../../shared/docs/src").join(SOURCE);
    let text = changed("native.rs", &read(&folder.with_extension("rs")), changes);
    let module: String = text
        .lines()
        .map(|line| adapted(line, &folder, changes))
        .collect();
    let out = PathBuf::from(env::var("OUT_DIR").expect("set by cargo"));
    fs::write(out.join(name), module + opened).expect("write the module");
}

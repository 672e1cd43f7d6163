// Takes the original from its folder: adapted to one module, and its linear.rs once more as it stands.
#[path = "../original/adapt.rs"]
mod adapt;

use std::path::PathBuf;
use std::{env, fs};

const LINEAR: &str = "crates/vmlab-hv-tcg-ir/src/native/linear.rs";

fn main() {
    adapt::adapt("plain.rs", "", &[]);
    let linear = adapt::folder("ORIGINAL", "../../../shared/docs/src").join(LINEAR);
    let out = PathBuf::from(env::var("OUT_DIR").expect("set by cargo"));
    fs::copy(&linear, out.join("linear.rs")).expect("copy linear.rs");
}

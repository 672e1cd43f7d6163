// Links the proved library. LIBRARY is the folder that holds libexport.a, by default target/staticlib of the repository.
use std::env;
use std::path::{Path, PathBuf};

fn main() {
    println!("cargo::rerun-if-env-changed=LIBRARY");
    let here = PathBuf::from(env::var_os("CARGO_MANIFEST_DIR").expect("cargo sets it"));
    let folder = match env::var_os("LIBRARY") {
        Some(folder) => here.join(Path::new(&folder)),
        None => here.join("../../target/staticlib"),
    };
    let archive = folder.join("libexport.a");
    println!("cargo::rerun-if-changed={}", archive.display());
    if !archive.exists() {
        println!(
            "cargo::warning=no {}: run `./staticlib` in the repository, or set LIBRARY",
            archive.display()
        );
        return;
    }
    println!("cargo::rustc-link-search=native={}", folder.display());
    println!("cargo::rustc-link-lib=static=export");
}

// Adapts the original twice, with a way in to its private parts: as it is, and metered. Links the proved library.
// LIBRARY is the folder that holds libexport.a, by default target/staticlib of the repository.
#[path = "../original/adapt.rs"]
mod adapt;
#[path = "../original/metered.rs"]
mod metered;
#[allow(dead_code)]
#[path = "src/sites.rs"]
mod sites;

use adapt::Change;
use metered::{OPENED, limits};
use sites::{Form, Site};
use std::path::Path;

// Has a site counted.
fn counted((number, site): (usize, Site)) -> Change {
    let meter = "crate::meter::";
    let text = site.text();
    let to = match site.form {
        Form::Before(_) => format!("{meter}hit({number}); {text}"),
        Form::Pass(_) => format!("{meter}pass({number}, {text})"),
        Form::None(_) => format!("{meter}none({number}, {text})"),
        Form::When(_) => format!("{meter}when({number}, {text})"),
        Form::Unless(_) => format!("{meter}unless({number}, {text})"),
        Form::Arm(_) => format!("=> {{ {meter}hit({number}); {text} }}"),
        Form::Unlike(_, pattern, place) => {
            format!("{meter}unless({number}, matches!({place}, {pattern})); {text}")
        }
        Form::Empty => format!("{{ {meter}hit({number}) }}"),
        Form::Expected(_) => format!(".or_else(|| {meter}none({number}, None)){text}"),
    };
    let from = match site.form {
        Form::Arm(_) => format!("=> {text}"),
        _ => text.to_string(),
    };
    Change {
        file: site.file,
        line: site.line,
        from,
        to,
    }
}

// Without the library the driver can still be built, and compares a program.
fn link_library(folder: &Path) {
    let archive = folder.join("libexport.a");
    println!("cargo::rerun-if-changed={}", archive.display());
    println!("cargo::rustc-check-cfg=cfg(library)");
    if archive.exists() {
        println!("cargo::rustc-cfg=library");
        println!("cargo::rustc-link-search=native={}", folder.display());
        println!("cargo::rustc-link-lib=static=export");
    }
}

fn main() {
    let mut changes = limits();
    changes.extend(sites::sites().enumerate().map(counted));
    adapt::adapt("plain.rs", OPENED, &[]);
    adapt::adapt("metered.rs", OPENED, &changes);
    link_library(&adapt::folder("LIBRARY", "../../target/staticlib"));
}

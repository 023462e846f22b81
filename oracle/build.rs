//! Puts each listed file, its text unchanged, into a module of its name,
//! followed by the file of that name in `appended/`, if there is one.

use std::path::{Path, PathBuf};
use std::{env, fs, process};

const LISTED: [&str; 4] = ["error", "coherent_set", "group_order", "presentation"];
const SOURCE: &str = "../../shared/docs/src/crates/dcps/src";

fn main() {
    println!("cargo:rerun-if-env-changed=GUBRESTAL_SOURCE");
    println!("cargo:rerun-if-changed=build.rs");
    let here = PathBuf::from(env::var_os("CARGO_MANIFEST_DIR").expect("set by cargo"));
    let source = here.join(env::var_os("GUBRESTAL_SOURCE").unwrap_or(SOURCE.into()));
    let mut modules = String::new();
    for name in LISTED {
        let listed = source.join(name).with_extension("rs");
        let text = read(&listed).unwrap_or_else(|error| {
            eprintln!(
                "The oracle needs the Rust source, and {} can't be read: {error}.\n\
                 Put the source at {SOURCE} (seen from oracle/), or set GUBRESTAL_SOURCE\n\
                 to the folder that holds {}.rs.",
                listed.display(),
                LISTED.join(".rs, ")
            );
            process::exit(1)
        });
        let appended = here.join("appended").join(name).with_extension("rs");
        let more = if appended.exists() {
            read(&appended).expect("a file of appended/")
        } else {
            String::new()
        };
        modules += &format!("#[allow(dead_code)]\npub mod {name} {{\n{text}\n{more}\n}}\n");
    }
    let out = PathBuf::from(env::var_os("OUT_DIR").expect("set by cargo"));
    fs::write(out.join("listed.rs"), modules).expect("OUT_DIR can be written");
}

fn read(path: &Path) -> std::io::Result<String> {
    println!("cargo:rerun-if-changed={}", path.display());
    fs::read_to_string(path)
}

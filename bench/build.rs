//! Links the port's static library.

use std::path::PathBuf;
use std::{env, process};

const FOLDER: &str = "../target/staticlib";

fn main() {
    println!("cargo:rerun-if-env-changed=GUBRESTAL_STATICLIB");
    println!("cargo:rerun-if-changed=build.rs");
    let here = PathBuf::from(env::var_os("CARGO_MANIFEST_DIR").expect("set by cargo"));
    let folder = here.join(env::var_os("GUBRESTAL_STATICLIB").unwrap_or(FOLDER.into()));
    let library = folder.join("libcalls.a");
    println!("cargo:rerun-if-changed={}", library.display());
    if !library.exists() {
        eprintln!(
            "The benchmark needs the port, and {} isn't there.\n\
             Make it with `tools/staticlib`, or set GUBRESTAL_STATICLIB to its folder.",
            library.display()
        );
        process::exit(1)
    }
    println!("cargo:rustc-link-search=native={}", folder.display());
    println!("cargo:rustc-link-lib=static=calls");
}

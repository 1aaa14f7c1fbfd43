//! Links the static library from the folder that `TANQESHA_LIB` names, the repository's own if it names none.

use std::path::{Path, PathBuf};

/// Its name: that of the crate of exported functions.
const LIBRARY: &str = "exports";

fn folder() -> PathBuf {
    let own = Path::new(env!("CARGO_MANIFEST_DIR")).join("../../target/staticlib");
    std::env::var_os("TANQESHA_LIB").map_or(own, PathBuf::from)
}

fn main() {
    println!("cargo:rerun-if-changed=build.rs");
    println!("cargo:rerun-if-env-changed=TANQESHA_LIB");
    let folder = folder();
    let archive = folder.join(format!("lib{LIBRARY}.a"));
    println!("cargo:rustc-link-search=native={}", folder.display());
    println!("cargo:rerun-if-changed={}", archive.display());
    if !archive.exists() {
        println!(
            "cargo:warning={} is missing: oracle/library makes it",
            archive.display()
        );
    }
    println!("cargo:rustc-link-lib=static={LIBRARY}");
}

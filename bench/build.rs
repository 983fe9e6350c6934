//! Finds the archives for the binaries that call them.

use std::env;
use std::path::PathBuf;

fn main() {
    link(
        "CARGO_FEATURE_LINKED",
        "snailstamp",
        "SNAILSTAMP_LIB_DIR",
        "../target/staticlib",
    );
    link(
        "CARGO_FEATURE_BESIDE",
        "before",
        "BEFORE_LIB_DIR",
        "../target/beside",
    );
}

/// Links an archive where its feature is asked for, from the folder that the variable names or else the usual one.
fn link(feature: &str, name: &str, variable: &str, usual: &str) {
    println!("cargo:rerun-if-env-changed={variable}");
    if env::var_os(feature).is_none() {
        return;
    }
    let folder = env::var_os(variable).map_or_else(|| PathBuf::from(usual), PathBuf::from);
    let Ok(folder) = folder.canonicalize() else {
        panic!("no folder {}: set {variable}", folder.display());
    };
    let archive = folder.join(format!("lib{name}.a"));
    assert!(archive.exists(), "no {}", archive.display());
    println!("cargo:rerun-if-changed={}", archive.display());
    println!("cargo:rustc-link-search=native={}", folder.display());
    println!("cargo:rustc-link-lib=static={name}");
}

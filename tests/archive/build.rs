//! Links the proved static libraries. EXPORTS_DIR names another folder than target/staticlib, to try them elsewhere.

use std::env;
use std::path::PathBuf;

fn main() {
    let here = PathBuf::from(env::var_os("CARGO_MANIFEST_DIR").expect("cargo sets it"));
    let usual = here.join("../../target/staticlib");
    let folder = env::var_os("EXPORTS_DIR").map_or(usual, PathBuf::from);
    println!("cargo::rerun-if-env-changed=EXPORTS_DIR");
    println!("cargo::rustc-link-search=native={}", folder.display());
    for library in ["exports", "writer_exports"] {
        let archive = folder.join(format!("lib{library}.a"));
        println!("cargo::rerun-if-changed={}", archive.display());
        if !archive.exists() {
            println!("cargo::error={} is missing: build the proved library first", archive.display());
            return;
        }
        println!("cargo::rustc-link-lib=static={library}");
    }
}

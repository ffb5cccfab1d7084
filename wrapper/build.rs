//! Tells the linker where the static library is: in GORGALHUT_LIB_DIR, or where `tools/build gorgalhut` writes it.

use std::env::{var, var_os};
use std::path::PathBuf;

fn main() {
    println!("cargo:rerun-if-env-changed=GORGALHUT_LIB_DIR");
    println!("cargo:rerun-if-changed=build.rs");
    let beside = || PathBuf::from(var("CARGO_MANIFEST_DIR").unwrap()).join("../target/staticlib");
    let directory = var_os("GORGALHUT_LIB_DIR").map_or_else(beside, PathBuf::from);
    let archive = directory.join("libgorgalhut.a");
    if !archive.exists() {
        eprintln!(
            "{} is missing: tools/build gorgalhut makes it",
            archive.display()
        );
        std::process::exit(1);
    }
    println!("cargo:rustc-link-search=native={}", directory.display());
    println!("cargo:rustc-link-lib=static=gorgalhut");
    // A library built anew is linked anew.
    println!("cargo:rerun-if-changed={}", archive.display());
}

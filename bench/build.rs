//! Tells the linker of the program `joins` where its library is: in GORGALHUT_LIB_DIR, or where `tools/build joins` writes it.

use std::env::{var, var_os};
use std::path::PathBuf;

fn main() {
    println!("cargo:rerun-if-env-changed=GORGALHUT_LIB_DIR");
    println!("cargo:rerun-if-changed=build.rs");
    let beside = || PathBuf::from(var("CARGO_MANIFEST_DIR").unwrap()).join("../target/staticlib");
    let directory = var_os("GORGALHUT_LIB_DIR").map_or_else(beside, PathBuf::from);
    let archive = directory.join("libjoins.a");
    println!("cargo:rustc-link-arg-bin=joins={}", archive.display());
    // A library built anew is linked anew.
    println!("cargo:rerun-if-changed={}", archive.display());
}

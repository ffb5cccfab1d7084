//! Tells the linker where the library is: GORGALHUT_LIB_DIR is its directory and
//! GORGALHUT_LIB_NAME its name without "lib" and ".a"; that of joins lies beside it.

use std::env::var;

/// The value of a variable that must be set.
fn told(name: &str) -> String {
    var(name).unwrap_or_else(|_| {
        eprintln!("{name} is not set; the feature fake needs no library");
        std::process::exit(1)
    })
}

/// Cargo tells a build script each feature that is on by a variable.
fn feature(name: &str) -> bool {
    var(format!("CARGO_FEATURE_{name}")).is_ok()
}

/// Links a library, and again when it is built anew.
fn link(directory: &str, name: &str) {
    println!("cargo:rustc-link-lib=static={name}");
    println!("cargo:rerun-if-changed={directory}/lib{name}.a");
}

fn main() {
    println!("cargo:rerun-if-env-changed=GORGALHUT_LIB_DIR");
    println!("cargo:rerun-if-env-changed=GORGALHUT_LIB_NAME");
    println!("cargo:rerun-if-changed=build.rs");
    // Calls bring takes with them.
    let queue = ["BOOK", "TAKES", "INSERT", "FRAMES", "LATENESS"]
        .into_iter()
        .any(feature);
    let joins = feature("JOINS");
    if feature("FAKE") || !(queue || joins) {
        return;
    }
    let directory = told("GORGALHUT_LIB_DIR");
    println!("cargo:rustc-link-search=native={directory}");
    if queue {
        link(&directory, &told("GORGALHUT_LIB_NAME"));
    }
    if joins {
        link(&directory, "joins");
    }
}

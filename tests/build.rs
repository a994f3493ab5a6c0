//! Links each comparison with the proved library that it asks: `texts` with libprobe.a, `book` with libvaikshurd.a, both of
//! the out/ of its crate or of the folders that PROBE_LIB_DIR and VAIKSHURD_LIB_DIR name.

use std::env;
use std::path::{Path, PathBuf};

fn main() {
    link("texts", "probe", "PROBE_LIB_DIR");
    link("book", "vaikshurd", "VAIKSHURD_LIB_DIR");
}

/// A library that is missing is no matter here: the other program can do without it, and the linker names it.
fn link(program: &str, library: &str, variable: &str) {
    println!("cargo:rerun-if-env-changed={variable}");
    let beside = Path::new(&env::var("CARGO_MANIFEST_DIR").unwrap()).join(format!("../crates/{library}/out"));
    let archive = env::var(variable).map_or(beside, PathBuf::from).join(format!("lib{library}.a"));
    println!("cargo:rerun-if-changed={}", archive.display());
    println!("cargo:rustc-link-arg-bin={program}={}", archive.display());
}

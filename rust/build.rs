//! Links ../target/staticlib/libnontrefalcu.a, which `make library` makes; NONTREFALCU_LIBRARY names another folder.

use std::env;
use std::path::{Path, PathBuf};

fn main() {
    let package = env::var("CARGO_MANIFEST_DIR").expect("CARGO_MANIFEST_DIR");
    let folder = env::var_os("NONTREFALCU_LIBRARY")
        .map_or_else(|| Path::new(&package).join("../target/staticlib"), PathBuf::from);
    let library = folder.join("libnontrefalcu.a");
    println!("cargo:rerun-if-env-changed=NONTREFALCU_LIBRARY");
    println!("cargo:rerun-if-changed={}", library.display());
    if !library.exists() {
        println!("cargo:warning={} is missing: `make library` makes it", library.display());
    }
    println!("cargo:rustc-link-search=native={}", folder.display());
    println!("cargo:rustc-link-lib=static=nontrefalcu");
}

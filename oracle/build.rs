//! Joins rdef.rs, unchanged, with what has to stand after its last line, and links the port.

use std::path::Path;
use std::{env, fs};

fn main() {
    // rdef.rs begins with inner doc comments, which `include!` refuses in a file of its own, and ends
    // with a doc comment that documents nothing. Inside `mod { .. }`, with an item after it, both are fine.
    let rdef = fs::read_to_string("src/rdef.rs").expect("src/rdef.rs");
    let after = fs::read_to_string("src/after_rdef.rs").expect("src/after_rdef.rs");
    let module = format!("#[allow(dead_code)]\npub mod rdef {{\n{rdef}{after}}}\n");
    let out = env::var("OUT_DIR").expect("OUT_DIR");
    fs::write(Path::new(&out).join("rdef_module.rs"), module).expect("rdef_module.rs");
    println!("cargo:rerun-if-changed=build.rs");
    println!("cargo:rerun-if-changed=src/rdef.rs");
    println!("cargo:rerun-if-changed=src/after_rdef.rs");

    if env::var_os("CARGO_FEATURE_LIBRARY").is_some() {
        let package = env::var("CARGO_MANIFEST_DIR").expect("CARGO_MANIFEST_DIR");
        let folder = Path::new(&package).join("../target/staticlib");
        println!("cargo:rustc-link-search=native={}", folder.display());
        println!("cargo:rustc-link-lib=static=nontrefalcu");
        println!("cargo:rerun-if-changed={}", folder.join("libnontrefalcu.a").display());
    }
}

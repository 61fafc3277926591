//! Times the library beside rdef.rs: same inputs, one run, release.
//!
//!     cargo bench

mod clock;
mod reading;
mod reflections;
mod tables;
mod texts;
mod worst;
mod writing;

use oracle::generate::timed::{chunk, growing, NEAR_LIMIT, TYPICAL};

fn main() {
    let mut inputs = Vec::new();
    for major in [4, 5] {
        inputs.push((format!("typical, major {major}"), chunk(&TYPICAL, major)));
        inputs.push((format!("near-limit, major {major}"), chunk(&NEAR_LIMIT, major)));
    }
    // The canonical form of the last but one still fits 65,536 bytes.
    let grown: Vec<_> = [1, 4, 16, 48, 64].map(|size| (format!("{size} KiB"), growing(size))).into();
    println!("Nanoseconds per call, the least of some rounds; a ratio above 1 says that the library is faster.\n");
    reading::table(&inputs, &grown);
    writing::table(&inputs, &grown);
    reflections::table();
    texts::table(&inputs);
    worst::table();
}

//! Writes the stored sample of canonical forms: reflections with the answer that rdef.rs gives.
//!
//!     canonical_cases FILE
//!
//! README.md has the file's form.

use oracle::writing::check::{counts_lines, place};
use oracle::writing::{stored, write};

fn main() {
    let path = std::env::args().nth(1).expect("usage: canonical_cases FILE");
    let cases = stored::cases();
    let mut counts = [0; 4];
    for case in &cases {
        counts[place(write(case).err().unwrap_or(0))] += 1;
    }
    let file = stored::file(&cases);
    print!("{}", counts_lines(&counts));
    println!("{} cases, {} bytes", cases.len(), file.len());
    std::fs::write(&path, file).expect("the file can be written");
}

//! Writes the stored sample for spelling and listing: queries with the answer that rdef.rs gives.
//!
//!     spelling_cases FILE
//!
//! README.md has the file's form.

use oracle::spelling::check::{counts_lines, place};
use oracle::spelling::model::Model;
use oracle::spelling::rust::Rust;
use oracle::spelling::{stored, Speller};

fn main() {
    let path = std::env::args().nth(1).expect("usage: spelling_cases FILE");
    let cases = stored::cases();
    let mut counts = [[0; 4]; 4];
    for case in &cases {
        let answer = Rust.answer(&case.query, case.room);
        assert_eq!(answer, Model.answer(&case.query, case.room), "the model and rdef.rs part on {case}");
        counts[case.query.kind()][place(answer.number)] += 1;
    }
    let file = stored::file(&cases);
    print!("{}", counts_lines(&counts));
    println!("{} cases, {} bytes", cases.len(), file.len());
    std::fs::write(&path, file).expect("the file can be written");
}

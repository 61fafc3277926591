//! Writes the stored reports: chunks to the file `stdin` of a folder, and to its file `stdout`, behind what
//! stands there before them, the reports of what rdef.rs reads, which the program `replay` must print.
//!
//!     report_cases FOLDER
//!
//! README.md has the files' form.

use oracle::report::stored;
use std::path::Path;

fn main() {
    let folder = std::env::args().nth(1).expect("usage: report_cases FOLDER");
    let chunks = stored::chunks();
    let (input, output) = (stored::input(&chunks), stored::output(&chunks));
    println!("{} chunks, {} bytes, {} bytes of reports", chunks.len(), input.len(), output.len());
    let (stdin, stdout) = (Path::new(&folder).join("stdin"), Path::new(&folder).join("stdout"));
    let mut printed = std::fs::read_to_string(&stdout).expect("the folder has a file stdout");
    printed.truncate(stored::reports_at(&printed).expect("the file stdout has the heading of the reports"));
    printed += &output;
    for (file, bytes) in [(stdin, &input[..]), (stdout, printed.as_bytes())] {
        std::fs::write(file, bytes).expect("the file can be written");
    }
}

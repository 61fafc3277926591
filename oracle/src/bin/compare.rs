//! Compares the port with rdef.rs and with the model: all fixed chunks, then N fresh ones, and the reports of N / 10 more.
//!
//!     compare [N] [SEED] [--model]
//!
//! With --model the model stands in for the port, to try the comparison itself, and no report is printed.

use oracle::report::check::Reading;
use oracle::{comparison, linked, port};
use std::process::ExitCode;

fn main() -> ExitCode {
    let port = linked!((port::port as port::Reader, Some(oracle::report::check::program())));
    comparison::run::<Reading>("compare", 1_000_000, (port::model, None), port)
}

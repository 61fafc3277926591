//! Compares the port's spelling and listing with rdef.rs and with the model: the stored sample and all
//! other fixed queries, then N fresh ones of each kind.
//!
//!     compare_spelling [N] [SEED] [--model]
//!
//! With --model the model stands in for the port, to try the comparison itself.

use oracle::spelling::check::Checker;
use oracle::spelling::port;
use oracle::{comparison, linked};
use std::process::ExitCode;

fn main() -> ExitCode {
    comparison::run::<Checker>("compare_spelling", 250_000, port::MODEL, linked!(port::PORT))
}

//! Compares the port's canonical form with rdef.rs: all fixed cases, then N fresh ones and N / 10 pairs of
//! reflections.
//!
//!     compare_canonical [N] [SEED] [--model]
//!
//! With --model the model and rdef.rs stand in for the port, to try the comparison itself.

use oracle::writing::check::Checker;
use oracle::writing::port;
use oracle::{comparison, linked};
use std::process::ExitCode;

fn main() -> ExitCode {
    comparison::run::<Checker>("compare_canonical", 1_000_000, port::model, linked!(port::port))
}

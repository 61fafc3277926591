//! What the three comparisons share: the count of what was compared, the first difference, and the program around them.

use crate::arguments::{self, Arguments};
use crate::generate::rng::Rng;
use std::fmt::{Display, Formatter};
use std::process::ExitCode;

/// How many were compared and how many of them differ.
#[derive(Default)]
pub struct Tally {
    pub compared: u64,
    pub different: u64,
    /// The first difference, in words.
    pub first: Option<String>,
}

impl Tally {
    pub fn differs(&mut self, what: impl FnOnce() -> String) {
        self.different += 1;
        self.first.get_or_insert_with(what);
    }

    /// Counts what another comparison counted.
    pub fn add(&mut self, other: &Tally) {
        self.compared += other.compared;
        self.different += other.different;
        self.first = self.first.take().or_else(|| other.first.clone());
    }
}

impl Display for Tally {
    fn fmt(&self, f: &mut Formatter<'_>) -> std::fmt::Result {
        write!(f, "{} compared, {} different", self.compared, self.different)
    }
}

/// Holds functions to rdef.rs, case by case.
pub trait Comparison {
    /// The functions that are compared: the port's, or the model's in their place.
    type Functions;
    /// What a fixed case is, in the plural.
    const CASES: &'static str;

    fn new(functions: Self::Functions) -> Self;
    fn tally(&self) -> &Tally;
    /// The counts of the answers, then the tally.
    fn report(&self) -> String;
    fn compare_fixed(&mut self, rng: &mut Rng);
    /// So many made with this seed.
    fn compare_fresh(&mut self, count: u64, seed: u64, rng: &mut Rng);
}

/// The program `NAME [N] [SEED] [--model]`: all fixed cases, then N fresh ones. There is no port where its library is not linked.
pub fn run<C: Comparison>(name: &str, count: u64, model: C::Functions, port: Option<C::Functions>) -> ExitCode {
    let chosen = arguments::read(count).and_then(|given| {
        let functions = if given.by_model { Some(model) } else { port };
        functions.map(|functions| (given, functions))
    });
    let Some((Arguments { count, seed, .. }, functions)) = chosen else {
        eprintln!("usage: {name} [N] [SEED] [--model]; without --model the feature `library` must be on");
        return ExitCode::from(2);
    };
    println!("seed {seed}");
    let mut checker = C::new(functions);
    let mut rng = Rng::new(seed, u64::MAX);
    checker.compare_fixed(&mut rng);
    println!("{} of fixed {} compared", checker.tally().compared, C::CASES);
    checker.compare_fresh(count, seed, &mut rng);
    println!("{}", checker.report());
    match &checker.tally().first {
        None => ExitCode::SUCCESS,
        Some(first) => {
            println!("first difference, {first}");
            ExitCode::FAILURE
        }
    }
}

/// The port's functions, where its library is linked.
#[macro_export]
macro_rules! linked {
    ($port:expr) => {{
        #[cfg(feature = "library")]
        {
            Some($port)
        }
        #[cfg(not(feature = "library"))]
        {
            None
        }
    }};
}

pub fn ensure(holds: bool, what: impl FnOnce() -> String) -> Result<(), String> {
    if holds {
        Ok(())
    } else {
        Err(what())
    }
}

pub fn hex(bytes: &[u8]) -> String {
    bytes.iter().map(|byte| format!("{byte:02x}")).collect()
}

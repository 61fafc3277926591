//! The words after a comparison's name: how many fresh queries, the seed, and whether the model stands in for the port.

use std::time::{SystemTime, UNIX_EPOCH};

pub struct Arguments {
    pub count: u64,
    pub seed: u64,
    pub by_model: bool,
}

/// `[N] [SEED] [--model]`; without a seed the clock gives one.
pub fn read(default_count: u64) -> Option<Arguments> {
    let mut words: Vec<String> = std::env::args().skip(1).collect();
    let by_model = words.iter().any(|word| word == "--model");
    words.retain(|word| word != "--model");
    let numbers: Vec<u64> = words.iter().map(|word| word.parse().ok()).collect::<Option<_>>()?;
    if numbers.len() > 2 {
        return None;
    }
    let count = numbers.first().copied().unwrap_or(default_count);
    let seed = numbers.get(1).copied().unwrap_or_else(fresh_seed);
    Some(Arguments { count, seed, by_model })
}

fn fresh_seed() -> u64 {
    SystemTime::now().duration_since(UNIX_EPOCH).map_or(0, |since| since.as_secs())
}

//! The chunks whose reports the gate replays, the same each time: every sample, document 01's own examples,
//! and generated ones.

use super::{input_chunk, input_head, report};
use crate::generate::{chains, examples, samples, Generator};
use crate::model;
use crate::tables::Rooms;
use std::collections::HashSet;

const SEED: u64 = 20_083;

/// How many generated chunks of each answer, 0 (read) first. 2 comes from the examples alone.
const WANTED: [usize; 16] = [300, 2, 0, 2, 4, 2, 4, 6, 3, 3, 3, 6, 4, 2, 3, 3];

/// No generated chunk and no report of one has more bytes than this. A chain of 66 types has fewer.
const MOST: usize = 2_048;

pub fn chunks() -> Vec<Vec<u8>> {
    let fixed = [samples::all(), examples::refusals(), examples::readings()].concat();
    let mut chunks: Vec<Vec<u8>> = fixed.into_iter().map(|fixed| fixed.bytes).collect();
    // The deepest types of major 5, too.
    chunks.push(chains::chain(5, 65, chains::End::Leaf));
    let mut seen: HashSet<Vec<u8>> = chunks.iter().cloned().collect();
    let generator = Generator::new(SEED);
    let mut missing = WANTED;
    for number in 0.. {
        if missing.iter().all(|&count| count == 0) {
            break;
        }
        let (_, chunk) = generator.chunk(number);
        let answer = model::read(&chunk, &Rooms::FULL).map_or_else(|number| number as usize, |_| 0);
        if missing[answer] > 0
            && chunk.len() <= MOST
            && (answer > 0 || report(&chunk).len() <= MOST)
            && seen.insert(chunk.clone())
        {
            missing[answer] -= 1;
            chunks.push(chunk);
        }
    }
    chunks
}

/// What the program `replay` reads on standard input.
pub fn input(chunks: &[Vec<u8>]) -> Vec<u8> {
    let mut input = input_head(chunks.len()).to_vec();
    chunks.iter().for_each(|chunk| input.extend(input_chunk(chunk)));
    input
}

/// What it must print after `HEADING`: each report, with an empty line after it.
pub fn output(chunks: &[Vec<u8>]) -> String {
    chunks.iter().map(|chunk| report(chunk) + "\n").collect()
}

/// The line after which the program prints the reports, behind what it prints of the stored files.
pub const HEADING: &str = "reports\n";

/// Where the reports begin in what the program prints.
pub fn reports_at(printed: &str) -> Option<usize> {
    printed.find(&format!("\n{HEADING}")).map(|heading| heading + 1 + HEADING.len())
}

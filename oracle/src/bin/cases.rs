//! Writes the stored sample: chunks with the answer that rdef.rs gives.
//!
//!     cases FILE
//!
//! All numbers are little-endian words. First the number of cases; then for each case the chunk's length,
//! its bytes, the refusal number (0: read) and, if it is 0, the 12 header words and the words of the
//! bindings, buffers, variables and types.

use oracle::generate::{fixed_chunks, Generator};
use oracle::model;
use oracle::tables::{Answer, Rooms};
use oracle::words;
use std::collections::HashSet;

/// The stored sample is the same each time.
const SEED: u64 = 20_080;

/// How many generated cases of each answer, 0 (read) first. 2 comes from the fixed chunks alone.
const WANTED: [usize; 16] = [600, 30, 0, 30, 40, 40, 40, 60, 40, 40, 40, 60, 60, 30, 40, 40];

fn main() {
    let file = std::env::args().nth(1).expect("usage: cases FILE");
    let mut sample = Sample::default();
    for fixed in fixed_chunks().into_iter().filter(|fixed| fixed.stored) {
        let number = model::read(&fixed.bytes, &Rooms::FULL).err().unwrap_or(0);
        assert_eq!(number, fixed.number, "{}", fixed.name);
        sample.add(&fixed.bytes);
    }
    let fixed = sample.cases;

    let generator = Generator::new(SEED);
    let mut missing = WANTED;
    for number in 0.. {
        if missing.iter().all(|&count| count == 0) {
            break;
        }
        let (_, chunk) = generator.chunk(number);
        let outcome = model::read(&chunk, &Rooms::FULL);
        let answer = outcome.as_ref().err().map_or(0, |&number| number as usize);
        // Small ones, so that many of them fit.
        if missing[answer] > 0 && chunk.len() + stored_words(&outcome) * 4 <= 4_096 && sample.add(&chunk) {
            missing[answer] -= 1;
        }
    }

    for (number, count) in sample.counts.iter().enumerate() {
        println!("{} {count}", if number == 0 { "read".to_string() } else { format!("refused {number}") });
    }
    let mut bytes = (sample.cases as u32).to_le_bytes().to_vec();
    bytes.append(&mut sample.bytes);
    println!("{} cases, {fixed} of them fixed, {} bytes", sample.cases, bytes.len());
    std::fs::write(&file, bytes).expect("the file can be written");
}

fn stored_words(outcome: &Result<Answer, u32>) -> usize {
    outcome.as_ref().map_or(0, |answer| 12 + answer.tables().iter().map(|table| table.len()).sum::<usize>())
}

#[derive(Default)]
struct Sample {
    bytes: Vec<u8>,
    cases: usize,
    counts: [usize; 16],
    seen: HashSet<Vec<u8>>,
}

impl Sample {
    /// Adds the chunk with its answer, unless it is there already.
    fn add(&mut self, chunk: &[u8]) -> bool {
        let outcome = model::read(chunk, &Rooms::FULL);
        let number = outcome.as_ref().err().copied().unwrap_or(0);
        // rdef.rs knows no limit, and on a chunk refused with 15 it may not end.
        if number != 2 && number != 15 {
            assert_eq!(words::read(chunk), outcome.clone().ok(), "the model and rdef.rs part on {chunk:x?}");
        }
        if !self.seen.insert(chunk.to_vec()) {
            return false;
        }
        self.put(chunk.len() as u32);
        self.bytes.extend(chunk);
        self.put(number);
        if let Ok(answer) = outcome {
            answer.header.into_iter().for_each(|word| self.put(word));
            for table in answer.tables() {
                table.iter().for_each(|&word| self.put(word));
            }
        }
        self.cases += 1;
        self.counts[number as usize] += 1;
        true
    }

    fn put(&mut self, word: u32) {
        self.bytes.extend(word.to_le_bytes());
    }
}

//! The stored sample of canonical forms, the same each time.

use super::check::place;
use super::generate::{fixed, with_room, Generator, Kind};
use super::{pairs, readable, write, Case, Held, SCRATCH};
use crate::generate::rng::Rng;
use std::collections::HashSet;

const SEED: u64 = 20_082;

/// How many generated cases of each kind, by answer: 0, 15, 16, 17.
const WANTED: [(Kind, [usize; 4]); 4] = [
    (Kind::Read, [200, 3, 0, 20]),
    (Kind::Edited, [450, 5, 0, 40]),
    (Kind::Built, [300, 4, 0, 40]),
    (Kind::Faulty, [0, 3, 150, 0]),
];

/// How many pairs of reflections.
const PAIRS: u64 = 60;

/// No generated case takes more bytes of the file than this.
const MOST: usize = 2_400;

/// All cases, without a double.
pub fn cases() -> Vec<Case> {
    let mut sample = Sample { cases: Vec::new(), seen: HashSet::new() };
    let mut rng = Rng::new(SEED, u64::MAX);
    for (index, (_, held)) in fixed::chunks().into_iter().enumerate() {
        // Of the many fixed chunks that read each fourth, but all that document 01 and the samples have.
        if index < 40 || index % 4 == 0 {
            sample.add(with_room(held, &mut rng), 3 * MOST);
        }
    }
    for (index, (_, held)) in fixed::boundary().into_iter().enumerate() {
        let case = with_room(held, &mut rng);
        if index % 2 == 0 {
            sample.add(case, MOST);
        }
    }
    for (_, held) in fixed::nearly_equal() {
        sample.add(roomy(held), 2 * MOST);
    }
    for (index, (_, held)) in fixed::faulty().into_iter().enumerate() {
        if index % 4 == 0 {
            sample.add(Case { held, scratch: SCRATCH, room: 100 }, MOST);
        }
    }
    let generator = Generator::new(SEED);
    for (kind, mut missing) in WANTED {
        for number in 0.. {
            if missing == [0; 4] {
                break;
            }
            let mut rng = Rng::new(SEED + kind as u64, number);
            let case = with_room(generator.of_kind(kind, &mut rng), &mut rng);
            let answer = place(write(&case).err().unwrap_or(0));
            if missing[answer] > 0 && sample.add(case, MOST) {
                missing[answer] -= 1;
            }
        }
    }
    let mut rng = Rng::new(SEED, u64::MAX - 1);
    let mut pairs = 0;
    for number in 0.. {
        if pairs == PAIRS {
            break;
        }
        let [a, b] = generator.pair(number);
        if stored_bytes(&a) + stored_bytes(&b) <= 2 * MOST && sample.add(a, MOST * 2) && sample.add(b, MOST * 2) {
            pairs += 1;
        }
    }
    // Some near the limits, as they are and as another reflection.
    for (_, held) in fixed::limits() {
        if readable::readable(&held).is_ok() && held.chunk.len() + held.edits.len() < 24_000 {
            let words: usize = held.words.tables().iter().map(|table| table.len()).sum();
            if words < 40_000 {
                let other = pairs::other(&held, &mut rng);
                sample.add(roomy(held), usize::MAX);
                if let (Some(other), true) = (other, words < 20_000) {
                    sample.add(roomy(other), usize::MAX);
                }
            }
        }
    }
    sample.cases
}

fn roomy(held: Held) -> Case {
    Case { held, scratch: SCRATCH, room: super::LONGEST }
}

struct Sample {
    cases: Vec<Case>,
    seen: HashSet<Vec<u8>>,
}

impl Sample {
    /// Adds the case, unless it is there already or takes more bytes than this.
    fn add(&mut self, case: Case, most: usize) -> bool {
        if stored_bytes(&case) > most {
            return false;
        }
        let mut bytes = Vec::new();
        put_case(&mut bytes, &case);
        if !self.seen.insert(bytes) {
            return false;
        }
        self.cases.push(case);
        true
    }
}

fn stored_bytes(case: &Case) -> usize {
    let words: usize = case.held.words.tables().iter().map(|table| table.len()).sum();
    case.held.chunk.len() + case.held.edits.len() + 4 * words + write(case).map_or(0, |bytes| bytes.len())
}

/// The file: little-endian words, the number of cases first. README.md has the order.
pub fn file(cases: &[Case]) -> Vec<u8> {
    let mut file = Vec::new();
    words(&mut file, &[cases.len() as u32]);
    cases.iter().for_each(|case| put_case(&mut file, case));
    file
}

fn put_case(file: &mut Vec<u8>, case: &Case) {
    bytes(file, &case.held.chunk);
    bytes(file, &case.held.edits);
    words(file, &case.held.words.header);
    for table in case.held.words.tables() {
        words(file, &[table.len() as u32]);
        words(file, table);
    }
    words(file, &[case.scratch as u32, case.room as u32]);
    match write(case) {
        Ok(written) => {
            words(file, &[0]);
            bytes(file, &written);
        }
        Err(number) => words(file, &[number, 0]),
    }
}

fn words(file: &mut Vec<u8>, words: &[u32]) {
    file.extend(words.iter().flat_map(|word| word.to_le_bytes()));
}

/// The length, then the bytes.
fn bytes(file: &mut Vec<u8>, bytes: &[u8]) {
    words(file, &[bytes.len() as u32]);
    file.extend(bytes);
}

//! The stored sample for spelling and listing, the same each time.

use super::check::place;
use super::generate::{examples, grid, with_room, Generator};
use super::rust::Rust;
use super::{Case, Query, Speller};
use crate::generate::rng::Rng;
use std::collections::HashSet;

const SEED: u64 = 20_081;

/// How many generated cases of each kind, by answer: 0, 16, 17, 18.
const WANTED: [[usize; 4]; 4] = [[120, 120, 60, 60], [120, 90, 50, 50], [250, 0, 0, 450], [200, 100, 80, 0]];

/// No generated case lends more bytes than this.
const MOST: usize = 256;

/// All cases, without a double.
pub fn cases() -> Vec<Case> {
    let mut rng = Rng::new(SEED, u64::MAX);
    let mut cases: Vec<Case> = examples::all().into_iter().map(|example| example.case).collect();
    cases.extend(grid::queries().into_iter().map(|query| with_room(query, &mut rng)));
    let mut seen = HashSet::new();
    cases.retain(|case| seen.insert(case.clone()));

    let generator = Generator::new(SEED);
    for (kind, mut missing) in WANTED.into_iter().enumerate() {
        for number in 0.. {
            if missing == [0; 4] {
                break;
            }
            let case = generator.case(kind, number);
            let answer = place(Rust.answer(&case.query, case.room).number);
            let small = case.query.bytes() <= MOST && case.room <= 2 * MOST;
            if missing[answer] > 0 && small && seen.insert(case.clone()) {
                missing[answer] -= 1;
                cases.push(case);
            }
        }
    }
    cases
}

/// The file: little-endian words, the number of cases first. Each case has its kind (1 to 4), what is lent
/// and the answer; README.md has the order.
pub fn file(cases: &[Case]) -> Vec<u8> {
    let mut file = Vec::new();
    words(&mut file, &[cases.len() as u32]);
    for case in cases {
        let answer = Rust.answer(&case.query, case.room);
        words(&mut file, &[case.query.kind() as u32 + 1]);
        let (buffers, records) = match &case.query {
            Query::TypeName(buffers, node) => (buffers, vec![&node[..]]),
            Query::Declaration(buffers, node, variable) => (buffers, vec![&node[..], &variable[..]]),
            Query::ListBinding(buffers, binding) => (buffers, vec![&binding[..]]),
            Query::ParseType(text) => {
                bytes(&mut file, text);
                words(&mut file, &[answer.number]);
                words(&mut file, &answer.numbers);
                continue;
            }
        };
        bytes(&mut file, &buffers.chunk);
        bytes(&mut file, &buffers.edits);
        records.into_iter().for_each(|record| words(&mut file, record));
        words(&mut file, &[case.room as u32, answer.number]);
        bytes(&mut file, &answer.text);
    }
    file
}

fn words(file: &mut Vec<u8>, words: &[u32]) {
    file.extend(words.iter().flat_map(|word| word.to_le_bytes()));
}

/// The length, then the bytes.
fn bytes(file: &mut Vec<u8>, bytes: &[u8]) {
    words(file, &[bytes.len() as u32]);
    file.extend(bytes);
}

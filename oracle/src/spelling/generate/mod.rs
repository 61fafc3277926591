//! Queries for spelling and listing: fixed ones, and an endless seeded stream of each kind.

pub mod examples;
pub mod grid;
pub mod long;
pub mod names;
pub mod records;
pub mod samples;
pub mod spellings;

use super::rust::Rust;
use super::{Case, Query, Speller, LONGEST};
use crate::generate::rng::Rng;
use crate::generate::texts;

/// The stream of cases: the `number`-th of a kind under a seed is always the same.
pub struct Generator {
    seed: u64,
    /// Names at the edges of UTF-8.
    edges: Vec<Vec<u8>>,
}

impl Generator {
    pub fn new(seed: u64) -> Generator {
        Generator { seed, edges: texts::edges() }
    }

    /// A case of the kind with this place in `KINDS`.
    pub fn case(&self, kind: usize, number: u64) -> Case {
        let mut rng = Rng::new(self.seed, 4 * number + kind as u64);
        let query = match kind {
            _ if kind != 2 && rng.one_in(1_500) => long::query(kind, &mut rng),
            0 => records::type_name(&self.edges, &mut rng),
            1 => records::declaration(&self.edges, &mut rng),
            2 => Query::ParseType(spellings::text(&mut rng)),
            _ => records::list_binding(&self.edges, &mut rng),
        };
        with_room(query, &mut rng)
    }
}

/// The query with an output: mostly just long enough or longer, at times too short.
pub fn with_room(query: Query, rng: &mut Rng) -> Case {
    if query.kind() == 2 {
        return Case { query, room: 0 };
    }
    let room = match Rust.answer(&query, LONGEST) {
        answer if answer.number == 0 => {
            let length = answer.text.len();
            match rng.below(16) {
                0..=5 => length,
                6..=8 => length + 1,
                9..=11 => length + rng.below(64),
                12 | 13 => length.saturating_sub(1),
                14 => rng.below(length + 1),
                _ => rng.pick(&[0, 0, 1, 300]),
            }
        }
        // Longer than any output may be, whatever is lent.
        answer if answer.number == 17 => rng.pick(&[0, 65_535, 65_536, 65_537, 65_600, 80_000]),
        _ => rng.pick(&[0, 1, 7, 40, 100]),
    };
    Case { query, room }
}

/// Rooms around the text's length, or around the greatest length there is.
pub fn with_rooms(query: &Query) -> Vec<Case> {
    let answer = Rust.answer(query, LONGEST);
    let length = answer.text.len();
    let rooms = match (query.kind(), answer.number) {
        (2, _) => vec![0],
        (_, 0) => vec![0, length.saturating_sub(1), length, length + 1, length + 50],
        (_, 17) => vec![0, 65_535, 65_536, 65_537, 80_000],
        _ => vec![0, 1, 50],
    };
    rooms.into_iter().map(|room| Case { query: query.clone(), room }).collect()
}

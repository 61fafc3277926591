//! Reflections to compare writers on: fixed ones, and an endless seeded stream.

pub mod boundaries;
pub mod built;
pub mod edits;
pub mod faults;
pub mod fields;
pub mod fixed;
pub mod large;
pub mod lay;
pub mod twins;

use super::{pairs, readable, rust, Case, Held, LONGEST, SCRATCH};
use crate::generate::rng::Rng;
use crate::generate::{Generator as Chunks, Kind as Chunk};
use crate::model;
use crate::rdef::parse_only;
use crate::tables::Rooms;

/// Where a generated reflection comes from.
#[derive(Clone, Copy, PartialEq, Eq, Debug)]
pub enum Kind {
    /// What a chunk reads as.
    Read,
    /// The same with names, defaults and numbers edited.
    Edited,
    /// Built anew from a chunk's records.
    Built,
    /// One of those with a fault.
    Faulty,
    /// Near the limits of document 01.
    Large,
}

/// The kinds and how many of 1,000 reflections are of each.
pub const KINDS: [(Kind, usize); 5] =
    [(Kind::Read, 150), (Kind::Edited, 400), (Kind::Built, 298), (Kind::Faulty, 150), (Kind::Large, 2)];

/// The stream of cases: the `number`-th under a seed is always the same.
pub struct Generator {
    seed: u64,
    chunks: Chunks,
}

impl Generator {
    pub fn new(seed: u64) -> Generator {
        Generator { seed, chunks: Chunks::new(seed) }
    }

    pub fn case(&self, number: u64) -> (Kind, Case) {
        let mut rng = Rng::new(self.seed, 2 * number);
        let mut turn = rng.below(1_000);
        for (kind, share) in KINDS {
            if turn < share {
                return (kind, with_room(self.of_kind(kind, &mut rng), &mut rng));
            }
            turn -= share;
        }
        unreachable!("the shares are 1,000")
    }

    pub fn of_kind(&self, kind: Kind, rng: &mut Rng) -> Held {
        match kind {
            Kind::Read => self.read(rng),
            Kind::Edited => {
                let mut held = self.read(rng);
                edits::edit(&mut held, rng);
                held
            }
            Kind::Built => {
                let held = self.read(rng);
                built::built(parse_only(&held.chunk).expect("rdef.rs reads it"), rng)
            }
            Kind::Faulty => self.faulty(rng),
            Kind::Large => {
                let mut held = large::random(rng);
                if rng.one_in(3) {
                    edits::edit(&mut held, rng);
                }
                held
            }
        }
    }

    /// Two reflections, with equal room.
    pub fn pair(&self, number: u64) -> [Case; 2] {
        let mut rng = Rng::new(self.seed, 2 * number + 1);
        loop {
            let kind = rng.pick(&[Kind::Read, Kind::Edited, Kind::Edited, Kind::Built]);
            let kind = if rng.one_in(500) { Kind::Large } else { kind };
            let held = self.of_kind(kind, &mut rng);
            let some_default = held.words.variables.chunks_exact(13).any(|variable| variable[8] > 0);
            if readable::readable(&held).is_err() || !some_default && !rng.one_in(20) {
                continue;
            }
            if let Some(other) = pairs::other(&held, &mut rng) {
                let case = with_room(held, &mut rng);
                let other = Case { held: other, ..case };
                return [case, other];
            }
        }
    }

    /// A chunk that reads, mostly a small one.
    fn read(&self, rng: &mut Rng) -> Held {
        loop {
            let kind = match rng.below(400) {
                0..=2 => Chunk::Branching,
                3 => Chunk::Crowded,
                4..=7 => Chunk::Deep,
                8..=60 => rng.pick(&[Chunk::Aimed, Chunk::Blunt, Chunk::Text, Chunk::Tiny]),
                _ => Chunk::Structured,
            };
            let chunk = self.chunks.of_kind(kind, rng);
            if let Ok(answer) = model::read(&chunk, &Rooms::FULL) {
                return Held::read(&chunk, answer);
            }
        }
    }

    fn faulty(&self, rng: &mut Rng) -> Held {
        let mut held = self.of_kind(rng.pick(&[Kind::Read, Kind::Edited, Kind::Built]), rng);
        if readable::readable(&held).is_ok() {
            // Not every fault can be put into every reflection.
            while faults::FAULTS[rng.below(faults::FAULTS.len())].2(&mut held, rng).is_none() {}
        }
        held
    }
}

/// The reflection with scratch and output: mostly enough, at times too short by a little or by much.
pub fn with_room(held: Held, rng: &mut Rng) -> Case {
    let scratch = match rng.below(64) {
        0 => SCRATCH - 1,
        1 => rng.pick(&[0, 1, 100, SCRATCH / 2, SCRATCH - 2]),
        2 => SCRATCH + 1,
        3 => SCRATCH + rng.below(5_000),
        _ => SCRATCH,
    };
    let length = readable::readable(&held).map_or(100, |()| rust::canonical(&held).len());
    let room = match rng.below(32) {
        0..=11 => length,
        12..=15 => length + 1,
        16..=23 => length + rng.below(64),
        24 | 25 => length - 1,
        26 => rng.below(length + 1),
        27 => rng.pick(&[0, 1, 27, 28, 300]),
        28 => LONGEST,
        29 => LONGEST + rng.pick(&[1, 4, 1_000]),
        _ => length + rng.below(4_096),
    };
    Case { held, scratch, room }
}

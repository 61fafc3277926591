//! All fixed cases: document 01's examples, the samples of a real compiler and every other fixed chunk that
//! reads; each part of the list of what is readable, just inside and just outside; faults; the limits.

use super::{boundaries, faults, large, twins};
use crate::generate::rng::Rng;
use crate::generate::{examples, fixed_chunks};
use crate::model;
use crate::tables::Rooms;
use crate::writing::{readable, rust, Case, Held, LONGEST, SCRATCH};

/// A reflection with a name.
pub type Named = (String, Held);

/// What the fixed chunks that read hold.
pub fn chunks() -> Vec<Named> {
    let mut named = Vec::new();
    for fixed in fixed_chunks() {
        if let Ok(answer) = model::read(&fixed.bytes, &Rooms::FULL) {
            named.push((fixed.name, Held::read(&fixed.bytes, answer)));
        }
    }
    named
}

/// Faults of each kind, some of each.
pub fn faulty() -> Vec<Named> {
    let mut named = Vec::new();
    for (number, base) in boundaries::bases().iter().enumerate() {
        for (index, (name, _, fault)) in faults::FAULTS.iter().enumerate() {
            for turn in 0..12 {
                let mut held = base.clone();
                if fault(&mut held, &mut Rng::new((3 * index + number) as u64, turn)).is_some() {
                    named.push((format!("base {number}, {name}, {turn}"), held));
                }
            }
        }
    }
    named
}

pub fn boundary() -> Vec<Named> {
    boundaries::all().into_iter().map(|(name, held, _)| (name, held)).collect()
}

/// Types that are equal but for one thing.
pub fn nearly_equal() -> Vec<Named> {
    twins::all()
}

pub fn limits() -> Vec<Named> {
    let mut named: Vec<Named> = large::SIZES
        .iter()
        .map(|(name, size)| (format!("major {}, {name}", size.major), large::held(size, 0)))
        .collect();
    named.extend(lengths());
    named
}

/// Canonical forms of 65,532, 65,536 and 65,540 bytes: case V with a long name.
pub fn lengths() -> Vec<Named> {
    let v = examples::case_v();
    let answer = model::read(&v, &Rooms::FULL).expect("V reads");
    let mut named = Vec::new();
    // The name's NUL and the creator's, in one pool, are the last bytes.
    for length in [65_420, 65_421, 65_424, 65_425, 65_426, 65_427, 65_428, 65_432] {
        let mut held = Held::read(&v, answer.clone());
        held.edits = vec![b'k'; length];
        held.words.variables[..3].copy_from_slice(&[1, 0, length as u32]);
        named.push((format!("V with a name of {length} bytes"), held));
    }
    named
}

/// The reflection with scratch and output around what it needs.
pub fn with_rooms(held: &Held) -> Vec<Case> {
    let case = |scratch: usize, room: usize| Case { held: held.clone(), scratch, room };
    let Ok(()) = readable::readable(held) else {
        return vec![case(SCRATCH, 0), case(SCRATCH, 200), case(SCRATCH - 1, 200)];
    };
    let length = rust::canonical(held).len();
    let mut cases: Vec<Case> =
        [length, length - 1, length + 1, length + 50, 0].into_iter().map(|room| case(SCRATCH, room)).collect();
    cases.extend([case(SCRATCH - 1, length), case(SCRATCH + 1, length), case(0, length)]);
    if length > LONGEST - 200 {
        cases.extend([LONGEST - 1, LONGEST, LONGEST + 1, LONGEST + 200].map(|room| case(SCRATCH, room)));
    }
    cases
}

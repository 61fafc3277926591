//! Two reflections: reflections that are alike but for the bytes of their defaults. Document 01, demand 3, as
//! a test on what was written.

use super::Held;
use crate::comparison::ensure;
use crate::generate::rng::Rng;
use crate::model;
use crate::tables::{Rooms, VARIABLE_WORDS};
use std::collections::HashMap;

/// The other reflection: each default has other bytes of the same length, and two are equal exactly where
/// they were before. Names may lie elsewhere. None where the text of edits would be too long.
pub fn other(held: &Held, rng: &mut Rng) -> Option<Held> {
    let mut other = held.clone();
    // For each length and each byte of it, a change that keeps different bytes different.
    let mut changes: HashMap<usize, Vec<(u8, u8)>> = HashMap::new();
    for variable in 0..held.count(2) {
        let at = variable * VARIABLE_WORDS + 6;
        let mut bytes = held.text(&held.words.variables[at..at + 3])?.to_vec();
        if bytes.is_empty() {
            continue;
        }
        let change = changes.entry(bytes.len()).or_insert_with(|| change(bytes.len(), rng));
        for (byte, (factor, add)) in bytes.iter_mut().zip(change) {
            *byte = byte.wrapping_mul(*factor).wrapping_add(*add);
        }
        let place = super::generate::edits::append(&mut other, &bytes, rng);
        other.words.variables[at..at + 3].copy_from_slice(&place);
    }
    if rng.one_in(2) {
        super::generate::edits::move_texts(&mut other, rng);
    }
    (other.edits.len() <= super::LONGEST).then_some(other)
}

/// A factor, which is odd, and a summand for each byte; now and then only the last byte changes.
fn change(length: usize, rng: &mut Rng) -> Vec<(u8, u8)> {
    if rng.one_in(4) {
        return (0..length).map(|index| (1, u8::from(index + 1 == length))).collect();
    }
    (0..length).map(|_| (rng.byte() | 1, rng.byte())).collect()
}

/// Whether two written reflections are alike: length, the places of the defaults as they are read out of the
/// written bytes, and every byte outside of them; and at these places stand the reflections' own bytes.
pub fn alike(pair: [&Held; 2], written: [&[u8]; 2]) -> Result<(), String> {
    let [a, b] = written;
    ensure(a.len() == b.len(), || format!("{} and {} bytes", a.len(), b.len()))?;
    let mut found = Vec::new();
    for (held, bytes) in pair.into_iter().zip(written) {
        let read =
            model::read(bytes, &Rooms::FULL).map_err(|number| format!("what is written is refused: {number}"))?;
        let places: Vec<[u32; 3]> = defaults(&read.variables).collect();
        let own = defaults(&held.words.variables).take(held.count(2));
        for (place, own) in places.iter().zip(own) {
            let start = place[1] as usize;
            let stands = bytes.get(start..start + place[2] as usize);
            ensure(stands == held.text(&own), || format!("another default stands at {start}"))?;
        }
        found.push(places);
    }
    ensure(found[0] == found[1], || "the defaults are found at other places".to_string())?;
    let mut covered = vec![false; a.len()];
    for [_, place, length] in &found[0] {
        covered[*place as usize..][..*length as usize].fill(true);
    }
    let outside = (0..a.len()).find(|&index| !covered[index] && a[index] != b[index]);
    ensure(outside.is_none(), || format!("byte {outside:?} lies in no default and differs"))
}

fn defaults(variables: &[u32]) -> impl Iterator<Item = [u32; 3]> + '_ {
    variables.chunks_exact(VARIABLE_WORDS).map(|words| [words[6], words[7], words[8]])
}

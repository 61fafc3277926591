//! Texts around the greatest length of an output, and small names in buffers longer than any chunk.

use crate::generate::rng::Rng;
use crate::spelling::rust::Rust;
use crate::spelling::{Buffers, Query, Speller, LONGEST};

/// A query of this kind whose text has one of the lengths around the limit.
pub fn query(kind: usize, rng: &mut Rng) -> Query {
    if rng.one_in(5) {
        return far(kind, rng.below(2), rng.pick(&[65_535, 65_536, 65_537, 80_000]));
    }
    let wide = rng.one_in(2);
    of_length(kind, rng.below(2), LONGEST - 2 + rng.below(5), wide)
}

/// A query whose text has just this length. Its name is of one letter, or of sequences of three bytes
/// but for what they leave.
pub fn of_length(kind: usize, source: usize, length: usize, wide: bool) -> Query {
    // With a name of 20 letters there is no padding behind it.
    let around = Rust.answer(&named(kind, source, 0, "a".repeat(20)), LONGEST).text.len() - 20;
    let rest = length - around;
    let (sequences, letters) = if wide { (rest / 3, rest % 3) } else { (0, rest) };
    named(kind, source, 0, "\u{20ac}".repeat(sequences) + &"a".repeat(letters))
}

/// A small name far behind the start of its buffer.
pub fn far(kind: usize, source: usize, place: usize) -> Query {
    named(kind, source, place, "far".to_string())
}

/// All of them that are compared each time.
pub fn queries() -> Vec<Query> {
    let mut queries = Vec::new();
    for kind in [0, 1, 3] {
        for source in [0, 1] {
            let near = |length| [of_length(kind, source, length, false), of_length(kind, source, length, true)];
            queries.extend([LONGEST - 1, LONGEST, LONGEST + 1].into_iter().flat_map(near));
            queries.extend([65_535, 65_536, 65_537, 80_000].map(|place| far(kind, source, place)));
        }
    }
    for number in 0..40 {
        queries.push(Query::ParseType(super::spellings::long(&mut Rng::new(11, number))));
    }
    queries
}

/// A query with one name, which ends where its buffer does: a struct's, a float's or a binding's.
fn named(kind: usize, source: usize, place: usize, name: String) -> Query {
    let words = [source as u32, place as u32, name.len() as u32];
    let bytes = [&vec![0xff; place][..], name.as_bytes()].concat();
    let buffers = match source {
        0 => Buffers { chunk: bytes, edits: Vec::new() },
        _ => Buffers { chunk: Vec::new(), edits: bytes },
    };
    let mut node = [0; 17];
    match kind {
        0 => {
            node[0] = 5;
            node[10..13].copy_from_slice(&words);
            Query::TypeName(buffers, node)
        }
        1 => {
            node[1] = 3;
            let mut variable = [0; 13];
            variable[..3].copy_from_slice(&words);
            Query::Declaration(buffers, node, variable)
        }
        _ => {
            let mut binding = [0; 12];
            binding[..3].copy_from_slice(&words);
            binding[9] = 0x10;
            Query::ListBinding(buffers, binding)
        }
    }
}

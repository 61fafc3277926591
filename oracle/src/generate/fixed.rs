//! A chunk with a name and the number that document 01 gives it, and small tools to build one by hand.

use super::layout::{lay, Field, Laid, Style};
use super::plan::{rd11, Plan, RD11};
use super::rng::Rng;

#[derive(Clone)]
pub struct Fixed {
    pub name: String,
    pub bytes: Vec<u8>,
    /// 0 where the chunk reads.
    pub number: u32,
    /// Whether it goes into the stored sample; only a few of the large ones do.
    pub stored: bool,
}

impl Fixed {
    pub fn new(name: impl Into<String>, bytes: Vec<u8>, number: u32) -> Fixed {
        Fixed { name: name.into(), bytes, number, stored: true }
    }

    /// Too large to be stored; it is compared all the same.
    pub fn not_stored(mut self) -> Fixed {
        self.stored = false;
        self
    }
}

pub fn put(bytes: &mut [u8], at: usize, word: u32) {
    bytes[at..at + 4].copy_from_slice(&word.to_le_bytes());
}

/// Zero bytes but the major version, the creator's offset (its text is empty) and, where there is room
/// for them, the RD11 words. Zero-filled records read: their names are the text at byte 0.
pub fn blank(major: u32, length: usize) -> Vec<u8> {
    let mut bytes = vec![0; length];
    let mut words = vec![(16, major << 8), (24, 20)];
    if major == 5 {
        words.extend(rd11(RD11, 32, 0).into_iter().enumerate().map(|(index, word)| (28 + 4 * index, word)));
    }
    for (at, word) in words {
        if at + 4 <= length {
            put(&mut bytes, at, word);
        }
    }
    bytes
}

/// A plan laid out plainly, always in the same way.
pub fn plain(plan: &Plan) -> Laid {
    lay(plan, Style::PLAIN, &mut Rng::new(0, 0))
}

impl Laid {
    /// The place of the word with this meaning, the `turn`-th in the order of layout.
    pub fn at(&self, field: Field, turn: usize) -> usize {
        let mut places = self.fields.iter().filter(|found| found.0 == field);
        places.nth(turn).expect("a word with this meaning").1
    }

    pub fn get(&self, field: Field, turn: usize) -> usize {
        let at = self.at(field, turn);
        u32::from_le_bytes(self.bytes[at..at + 4].try_into().expect("four bytes")) as usize
    }

    pub fn set(mut self, field: Field, turn: usize, word: usize) -> Laid {
        let at = self.at(field, turn);
        put(&mut self.bytes, at, word as u32);
        self
    }
}

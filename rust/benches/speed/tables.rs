//! Reflections made by hand, which no chunk reads as: the tables are full, and every name has 60,000 bytes. Two names never lie at the same place: they
//! are parts, over each other, of two texts, the chunk's bytes and the edits.

use oracle::generate::rng::Rng;
use oracle::tables::{Answer, LIMITS};
use oracle::writing::readable::readable;
use oracle::writing::Held;

/// Those of the creator, the bindings, buffers, variables and types, and of members: each variable is a struct of one.
const NAMES: u32 = 1 + 1_024 + 64 + 2_048 + 4_096 + 2_048;

const NAME_BYTES: u32 = 60_000;

/// The bytes of the chunk and of the edits.
pub type Texts = [Vec<u8>; 2];

/// In which types the number is another one each time; it is the number of columns.
#[derive(Clone, Copy, PartialEq, Eq)]
pub enum Numbered {
    All,
    /// Structs are then equal up to the type of their member.
    Members,
}

/// All names are equal.
pub fn equal() -> Texts {
    [vec![b'n'; 65_536], vec![b'n'; 65_536]]
}

/// All names differ: each text begins with 30,000 equal letters or more, and no two names have the first other letter at the same place.
pub fn different() -> Texts {
    varied(b"o", |text, rng| text.push(b'a' + rng.below(26) as u8))
}

/// The same, and the names fall into few buckets. A text's hash goes by words of four bytes, h * 31 + word: there one more in a byte and 31 less in the
/// fourth byte after it cancel out.
pub fn different_in_few_buckets() -> Texts {
    varied(b"onnnOnnn", |text, rng| text.extend(rng.pick(&[b"onnnOnnn", b"nnnnnnnn"])))
}

fn varied(first: &[u8], mut push: impl FnMut(&mut Vec<u8>, &mut Rng)) -> Texts {
    let mut rng = Rng::new(9, 0);
    [30_000, 35_000].map(|equal| {
        let mut text = vec![b'n'; equal];
        text.extend(first);
        while text.len() < 65_536 {
            push(&mut text, &mut rng);
        }
        text.truncate(65_536);
        text
    })
}

/// The full tables over these texts.
pub fn full_of_names(texts: Texts, numbered: Numbered) -> Held {
    let mut names = (0..NAMES).map(|index| [index % 2, index / 2, NAME_BYTES]);
    let mut name = || names.next().expect("a name for each field");
    let mut words = Answer::default();
    words.header[0] = 0x500;
    words.header[2..5].copy_from_slice(&name());
    words.header[5..7].copy_from_slice(&[0x3131_4452, 32]);
    for index in 0..LIMITS[0] as u32 {
        words.bindings.extend(name());
        words.bindings.extend([2, 5, 4, u32::MAX, index, 1, 12, 0, 0]);
    }
    for _ in 0..LIMITS[1] {
        words.buffers.extend(name());
        words.buffers.extend([(LIMITS[2] / LIMITS[1]) as u32, 512, 0, 0]);
    }
    for index in 0..LIMITS[2] as u32 {
        words.variables.extend(name());
        words.variables.extend([16 * index, 16, 2, 0, 0, 0, 0, 0, 0, 0]);
        let columns = if numbered == Numbered::All { index } else { 0 };
        words.types.extend([5, 0, 1, columns, 0, 1, 0, 0, 0, 0]);
        words.types.extend(name());
        words.types.extend([0; 4]);
        words.types.extend([1, 3, 1, index, 0, 0, 0, 0, 0, 0]);
        words.types.extend([name(), name()].concat());
        words.types.push(0);
    }
    words.count_records();
    assert!(names.next().is_none());
    let [chunk, edits] = texts;
    let held = Held { chunk, edits, words };
    assert_eq!(readable(&held), Ok(()));
    held
}

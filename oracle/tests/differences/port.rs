//! What the port answers: the model's answer, and where the port is linked it must be the port's too.

use oracle::spelling::model::Model;
use oracle::spelling::{Answer, Query, Speller};
use oracle::tables::{Answer as Words, Rooms};
use oracle::writing::{write, Case, Held, LONGEST, SCRATCH};
use oracle::{model, words};

/// What a chunk reads as.
pub fn read(chunk: &[u8]) -> Result<Words, u32> {
    let answer = model::read(chunk, &Rooms::FULL);
    #[cfg(feature = "library")]
    {
        use oracle::tables::{LIMITS, WIDTHS};
        let mut tables: [Vec<u32>; 4] = std::array::from_fn(|table| vec![1; LIMITS[table] * WIDTHS[table]]);
        let mut header = [1; 12];
        let number = oracle::port::port(chunk, &mut header, tables.each_mut().map(|table| &mut table[..]));
        assert_eq!(number, answer.as_ref().err().copied().unwrap_or(0));
        assert_eq!(header, answer.as_ref().map_or([0; 12], |answer| answer.header));
    }
    answer
}

/// What a reflection is written as, with scratch and output enough for any.
pub fn canonical(held: &Held) -> Result<Vec<u8>, u32> {
    canonical_into(held, LONGEST)
}

pub fn canonical_into(held: &Held, room: usize) -> Result<Vec<u8>, u32> {
    let answer = write(&Case { held: held.clone(), scratch: SCRATCH, room });
    #[cfg(feature = "library")]
    {
        use oracle::writing::port::{port, Lent};
        let lent =
            Lent { chunk: &held.chunk, edits: &held.edits, header: &held.words.header, tables: held.words.tables() };
        let (mut scratch, mut out, mut length) = (vec![1; SCRATCH], vec![1; room], [1]);
        let number = port(&lent, &mut scratch, &mut out, &mut length);
        assert_eq!(number, answer.as_ref().err().copied().unwrap_or(0));
        assert_eq!(out[..length[0] as usize], answer.clone().unwrap_or_default());
    }
    answer
}

/// What a query of spelling or listing gives in an output of this length.
pub fn spelled(query: &Query, room: usize) -> Answer {
    let answer = Model.answer(query, room);
    #[cfg(feature = "library")]
    {
        let mut checker = oracle::spelling::check::Checker::new(oracle::spelling::port::PORT);
        let case = oracle::spelling::Case { query: query.clone(), room };
        use oracle::comparison::Comparison;
        checker.compare("", &case, &mut oracle::generate::rng::Rng::new(0, 0));
        assert_eq!(checker.tally().different, 0, "{:?}", checker.tally().first);
    }
    answer
}

/// What rdef.rs reads, as the words of a reflection in tables, within document 01's room or not.
pub fn held(chunk: &[u8]) -> Held {
    Held::read(chunk, words::read(chunk).expect("rdef.rs reads it"))
}

//! Holds a reader with lent tables to rdef.rs and to the model, to the last word.

use crate::comparison::{ensure, hex, Comparison, Tally};
use crate::generate::rng::Rng;
use crate::generate::{fixed_chunks, Generator, Kind};
use crate::port::Reader;
use crate::tables::{Answer, Rooms, LIMITS, TABLE_NAMES, WIDTHS};
use crate::{model, words};

/// Words on both sides of a lent table that must stay as they are.
const GUARD: usize = 8;

/// How large the lent tables are.
#[derive(Clone, Copy, PartialEq, Eq, Debug)]
pub enum Lending {
    /// The limits of document 01.
    Full,
    /// Longer than the limits, by no whole record.
    Over,
    /// As many records as the chunk needs, and some words that make no record.
    Enough,
    /// As `Enough`, but one table a word short of its last record.
    Short,
    /// A few words.
    Small,
}

pub struct Checker {
    reader: Reader,
    chunk: Vec<u8>,
    header: Vec<u32>,
    tables: [Vec<u32>; 4],
    /// How many answers were 0 (read) and each refusal number.
    pub counts: [u64; 16],
    pub tally: Tally,
}

impl Comparison for Checker {
    type Functions = Reader;
    const CASES: &'static str = "chunks";

    fn new(reader: Reader) -> Checker {
        let table = |index: usize| vec![0; LIMITS[index] * WIDTHS[index] + 64 + 2 * GUARD];
        Checker {
            reader,
            chunk: Vec::new(),
            header: vec![0; 12 + 2 * GUARD],
            tables: std::array::from_fn(table),
            counts: [0; 16],
            tally: Tally::default(),
        }
    }

    fn tally(&self) -> &Tally {
        &self.tally
    }

    fn report(&self) -> String {
        self.report_counts() + &self.tally.to_string()
    }

    fn compare_fixed(&mut self, rng: &mut Rng) {
        for fixed in fixed_chunks() {
            for lending in [Lending::Full, Lending::Over, Lending::Enough, Lending::Short, Lending::Small] {
                self.compare(&fixed.name, &fixed.bytes, lending, rng);
            }
        }
    }

    fn compare_fresh(&mut self, count: u64, seed: u64, rng: &mut Rng) {
        let generator = Generator::new(seed);
        for number in 0..count {
            let (kind, chunk) = generator.chunk(number);
            let lending = some_lending(kind, rng);
            self.compare(&format!("chunk {number}, {kind:?}, {lending:?}"), &chunk, lending, rng);
        }
    }
}

impl Checker {
    /// How many chunks were read, and refused with each number.
    pub fn report_counts(&self) -> String {
        let mut lines = format!("read {}\n", self.counts[0]);
        for number in 1..16 {
            lines += &format!("refused {number} {}\n", self.counts[number]);
        }
        lines
    }

    /// Reads the chunk into tables of this kind and counts the answer, and a difference if there is one.
    pub fn compare(&mut self, name: &str, chunk: &[u8], lending: Lending, rng: &mut Rng) {
        let full = model::read(chunk, &Rooms::FULL);
        let lent = lent_words(lending, &full, rng);
        // Where there is room for all, the limits and the lent tables say the same.
        let roomy = |answer: &Answer| (0..4).all(|table| answer.tables()[table].len() <= lent[table]);
        let expected = match full {
            Ok(answer) if roomy(&answer) => Ok(answer),
            _ => model::read(chunk, &Rooms::lent(lent)),
        };
        self.tally.compared += 1;
        self.counts[expected.as_ref().err().copied().unwrap_or(0) as usize] += 1;
        if let Err(what) = self.one(chunk, lent, expected, rng) {
            self.tally.differs(|| {
                format!("{name}: {what}\nlent words {lent:?}, chunk of {} bytes:\n{}", chunk.len(), hex(chunk))
            });
        }
    }

    fn one(
        &mut self,
        chunk: &[u8],
        lent: [usize; 4],
        expected: Result<Answer, u32>,
        rng: &mut Rng,
    ) -> Result<(), String> {
        // A chunk refused with 2 or 15 is no matter of rdef.rs, and its walk may not end.
        let (number, answer) = match expected {
            Ok(model) => {
                let rust = words::read(chunk).ok_or("the model reads it, rdef.rs does not")?;
                ensure(model == rust, || "the model reads other words than rdef.rs".to_string())?;
                (0, rust)
            }
            Err(number) => {
                let refused = number == 2 || number == 15 || words::read(chunk).is_none();
                ensure(refused, || format!("the model refuses with {number}, rdef.rs reads it"))?;
                (number, Answer::default())
            }
        };
        // At any address, between bytes that would end a text or carry it on, if they were read.
        let (around, start) = (rng.pick(&[0, b'a', 0xbf, 0xff]), rng.below(8));
        self.chunk.clear();
        self.chunk.resize(start, around);
        self.chunk.extend(chunk);
        self.chunk.resize(start + chunk.len() + 64, around);
        let lent_chunk = start..start + chunk.len();
        let garbage = rng.word() | 1;
        self.header.fill(garbage);
        for (table, words) in self.tables.iter_mut().zip(lent) {
            table[..words + 2 * GUARD].fill(garbage);
        }
        let mut rest = self.tables.iter_mut().zip(lent).map(|(table, words)| &mut table[GUARD..GUARD + words]);
        let tables = std::array::from_fn(|_| rest.next().expect("four tables"));
        let given = (self.reader)(&self.chunk[lent_chunk.clone()], &mut self.header[GUARD..GUARD + 12], tables);

        ensure(given == number, || format!("answer {given}, not {number}"))?;
        ensure(self.chunk[lent_chunk] == *chunk, || "the chunk was written".to_string())?;
        compare_table("header", &self.header, 12, &answer.header, garbage)?;
        for (index, name) in TABLE_NAMES.into_iter().enumerate() {
            compare_table(name, &self.tables[index], lent[index], answer.tables()[index], garbage)?;
        }
        Ok(())
    }
}

/// The words, zeros up to the lent end, and garbage untouched outside.
fn compare_table(name: &str, table: &[u32], lent: usize, words: &[u32], garbage: u32) -> Result<(), String> {
    let (before, rest) = table.split_at(GUARD);
    let (inside, after) = rest.split_at(lent);
    if inside[..words.len()] == *words && inside[words.len()..].iter().all(|&word| word == 0) {
        let guards = before.iter().chain(&after[..GUARD]);
        return ensure(guards.into_iter().all(|&word| word == garbage), || format!("{name}: written outside"));
    }
    let wanted = |index: usize| words.get(index).copied().unwrap_or(0);
    let index = (0..lent).find(|&index| inside[index] != wanted(index)).unwrap_or(0);
    Err(format!("{name}: word {index} is {:#x}, not {:#x}", inside[index], wanted(index)))
}

/// Full-size tables cost most of the time, so only a share of the calls gets them; the chunks around the
/// limits get them oftener.
fn some_lending(kind: Kind, rng: &mut Rng) -> Lending {
    if matches!(kind, Kind::Branching | Kind::Crowded) && rng.one_in(2) {
        return rng.pick(&[Lending::Full, Lending::Full, Lending::Over]);
    }
    match rng.below(200) {
        0..=3 => Lending::Full,
        4 => Lending::Over,
        5..=29 => Lending::Short,
        30..=44 => Lending::Small,
        _ => Lending::Enough,
    }
}

fn lent_words(lending: Lending, full: &Result<Answer, u32>, rng: &mut Rng) -> [usize; 4] {
    let mut lent: [usize; 4] = match (lending, full) {
        (Lending::Full | Lending::Over, _) => std::array::from_fn(|table| LIMITS[table] * WIDTHS[table]),
        (Lending::Small, _) => std::array::from_fn(|_| rng.below(60)),
        (_, Ok(answer)) => answer.tables().map(<[u32]>::len),
        // A refused chunk says nothing of its need: enough for most of the small ones.
        (_, Err(_)) => [8, 8, 16, 80].map(|records| records * 17),
    };
    match lending {
        Lending::Over => lent.iter_mut().for_each(|words| *words += rng.below(64)),
        Lending::Enough => lent.iter_mut().zip(WIDTHS).for_each(|(words, width)| *words += rng.below(width)),
        Lending::Short => {
            let table = rng.below(4);
            lent[table] = lent[table].saturating_sub(rng.between(1, WIDTHS[table]));
        }
        Lending::Full | Lending::Small => {}
    }
    lent
}

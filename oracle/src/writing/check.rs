//! Holds a writer with lent scratch and output to rdef.rs and to the model of readable, to the last byte.

use super::generate::{fixed, Generator};
use super::pairs::alike;
use super::port::{Lent, Writer};
use super::{show, stored, write, Case, NUMBERS};
use crate::comparison::{Comparison, Tally};
use crate::generate::rng::Rng;
use crate::guarded::Guarded;
use crate::tables::TABLE_NAMES;

pub struct Checker {
    writer: Writer,
    /// How many answers there were with each of `NUMBERS`.
    pub counts: [u64; 4],
    /// Pairs of reflections, and how many of them were written.
    pub pairs: u64,
    pub written_pairs: u64,
    pub tally: Tally,
}

impl Comparison for Checker {
    type Functions = Writer;
    const CASES: &'static str = "cases";

    fn new(writer: Writer) -> Checker {
        Checker { writer, counts: [0; 4], pairs: 0, written_pairs: 0, tally: Tally::default() }
    }

    fn tally(&self) -> &Tally {
        &self.tally
    }

    fn report(&self) -> String {
        let pairs = format!("{} pairs of reflections, {} of them written\n", self.pairs, self.written_pairs);
        counts_lines(&self.counts) + &pairs + &self.tally.to_string()
    }

    fn compare_fixed(&mut self, rng: &mut Rng) {
        for (index, case) in stored::cases().iter().enumerate() {
            self.compare(&format!("stored case {index}"), case, rng);
        }
        for (name, held) in
            [fixed::chunks(), fixed::boundary(), fixed::nearly_equal(), fixed::faulty(), fixed::limits()].concat()
        {
            for case in fixed::with_rooms(&held) {
                self.compare(&name, &case, rng);
            }
        }
    }

    /// So many cases, and a tenth of that in pairs of reflections.
    fn compare_fresh(&mut self, count: u64, seed: u64, rng: &mut Rng) {
        let generator = Generator::new(seed);
        for number in 0..count {
            let (kind, case) = generator.case(number);
            self.compare(&format!("case {number}, {kind:?}"), &case, rng);
        }
        for number in 0..count / 10 {
            self.compare_pair(&format!("pair {number}"), generator.pair(number).each_ref(), rng);
        }
    }
}

impl Checker {
    /// Writes the case and counts the answer, and a difference if there is one. The answer is the writer's.
    pub fn compare(&mut self, name: &str, case: &Case, rng: &mut Rng) -> Option<Result<Vec<u8>, u32>> {
        let expected = write(case);
        self.tally.compared += 1;
        self.counts[place(expected.as_ref().err().copied().unwrap_or(0))] += 1;
        match self.one(case, &expected, rng) {
            Ok(given) => Some(given),
            Err(what) => {
                self.tally.differs(|| format!("{name}: {what}\n{case}\nby rdef.rs: {}", show::outcome(&expected)));
                None
            }
        }
    }

    /// Two reflections, with equal room: both are compared, and what is written must be alike but for the
    /// bytes of the defaults.
    pub fn compare_pair(&mut self, name: &str, pair: [&Case; 2], rng: &mut Rng) {
        let [a, b] = pair.map(|case| self.compare(name, case, rng));
        self.pairs += 1;
        let (Some(a), Some(b)) = (a, b) else {
            return;
        };
        let outcome = match (a, b) {
            (Err(a), Err(b)) if a == b => Ok(()),
            (Ok(a), Ok(b)) => {
                self.written_pairs += 1;
                alike([&pair[0].held, &pair[1].held], [&a, &b])
            }
            _ => Err("one reflection is written or refused otherwise than the other".to_string()),
        };
        if let Err(what) = outcome {
            self.tally.differs(|| format!("{name}: {what}\none reflection: {}\nthe other: {}", pair[0], pair[1]));
        }
    }

    fn one(&self, case: &Case, expected: &Result<Vec<u8>, u32>, rng: &mut Rng) -> Result<Result<Vec<u8>, u32>, String> {
        let words = &case.held.words;
        let chunk = Guarded::bytes(&case.held.chunk, rng);
        let edits = Guarded::bytes(&case.held.edits, rng);
        let header = Guarded::new(&words.header, rng.word(), 0);
        let tables = words.tables().map(|table| Guarded::new(table, rng.word(), rng.below(4)));
        let (garbage, old) = (rng.between(1, 255) as u8, rng.word() | 1);
        let mut scratch = Guarded::filled(case.scratch, old, rng.below(4));
        let mut out = Guarded::filled(case.room, garbage, rng.below(8));
        let mut length = Guarded::filled(rng.between(1, 3), old, 0);

        let lent = Lent {
            chunk: chunk.lent(),
            edits: edits.lent(),
            header: header.lent(),
            tables: tables.each_ref().map(|table| table.lent()),
        };
        let given = (self.writer)(&lent, scratch.lent_mut(), out.lent_mut(), length.lent_mut());

        chunk.holds("chunk", &case.held.chunk, 0)?;
        edits.holds("edits", &case.held.edits, 0)?;
        header.holds("header", &words.header, 0)?;
        for (name, (table, words)) in TABLE_NAMES.iter().zip(tables.iter().zip(words.tables())) {
            table.holds(name, words, 0)?;
        }
        let number = expected.as_ref().err().copied().unwrap_or(0);
        if given != number {
            return Err(format!("answer {given}, not {number}"));
        }
        // Scratch is zero after every answer; a refusal leaves zeros, a written form the bytes behind it.
        scratch.holds("scratch", &[], 0)?;
        let bytes = expected.as_ref().map_or(&[][..], |bytes| bytes);
        length.holds("length", &[bytes.len() as u32], 0)?;
        out.holds("output", bytes, if given == 0 { garbage } else { 0 })?;
        Ok(if given == 0 { Ok(out.lent()[..length.lent()[0] as usize].to_vec()) } else { Err(given) })
    }
}

/// How many were written, how many refused with each number.
pub fn counts_lines(counts: &[u64; 4]) -> String {
    let mut lines = format!("written {}\n", counts[0]);
    for (number, count) in NUMBERS.iter().zip(counts).skip(1) {
        lines += &format!("refused {number} {count}\n");
    }
    lines
}

/// The place in `NUMBERS`.
pub fn place(number: u32) -> usize {
    NUMBERS.iter().position(|&known| known == number).expect("0, 15, 16 or 17")
}

//! Holds entry points for spelling and listing to rdef.rs and to the model, to the last byte.

use super::generate::{grid, long, samples, with_rooms, Generator};
use super::model::Model;
use super::port::Entries;
use super::rust::Rust;
use super::{stored, Answer, Case, Query, Speller, KINDS, NUMBERS};
use crate::comparison::{ensure, Comparison, Tally};
use crate::generate::rng::Rng;
use crate::guarded::Guarded;

pub struct Checker {
    entries: Entries,
    /// How many answers of each kind there were with each of `NUMBERS`.
    pub counts: [[u64; 4]; 4],
    pub tally: Tally,
}

impl Comparison for Checker {
    type Functions = Entries;
    const CASES: &'static str = "queries";

    fn new(entries: Entries) -> Checker {
        Checker { entries, counts: [[0; 4]; 4], tally: Tally::default() }
    }

    fn tally(&self) -> &Tally {
        &self.tally
    }

    fn report(&self) -> String {
        counts_lines(&self.counts) + &self.tally.to_string()
    }

    fn compare_fixed(&mut self, rng: &mut Rng) {
        for (index, case) in stored::cases().iter().enumerate() {
            self.compare(&format!("stored case {index}"), case, rng);
        }
        for query in [grid::queries(), long::queries(), samples::queries()].concat() {
            for case in with_rooms(&query) {
                self.compare("fixed query", &case, rng);
            }
        }
    }

    /// So many of each kind.
    fn compare_fresh(&mut self, count: u64, seed: u64, rng: &mut Rng) {
        let generator = Generator::new(seed);
        for (kind, name) in KINDS.iter().enumerate() {
            for number in 0..count {
                self.compare(&format!("{name} {number}"), &generator.case(kind, number), rng);
            }
        }
    }
}

impl Checker {
    /// Calls the entry point and counts the answer, and a difference if there is one.
    pub fn compare(&mut self, name: &str, case: &Case, rng: &mut Rng) {
        let expected = Rust.answer(&case.query, case.room);
        self.tally.compared += 1;
        self.counts[case.query.kind()][place(expected.number)] += 1;
        if let Err(what) = self.one(case, &expected, rng) {
            self.tally.differs(|| format!("{name}: {what}\n{case}\nby rdef.rs: {expected}"));
        }
    }

    fn one(&self, case: &Case, expected: &Answer, rng: &mut Rng) -> Result<(), String> {
        let model = Model.answer(&case.query, case.room);
        ensure(model == *expected, || format!("the model has {model}"))?;
        let (buffers, records) = match &case.query {
            Query::ParseType(text) => return self.parse(text, expected, rng),
            Query::TypeName(buffers, node) => (buffers, vec![&node[..]]),
            Query::Declaration(buffers, node, variable) => (buffers, vec![&node[..], &variable[..]]),
            Query::ListBinding(buffers, binding) => (buffers, vec![&binding[..]]),
        };
        let chunk = Guarded::bytes(&buffers.chunk, rng);
        let edits = Guarded::bytes(&buffers.edits, rng);
        let words: Vec<Guarded<u32>> = records.iter().map(|record| Guarded::new(record, rng.word(), 0)).collect();
        let (garbage, old) = (rng.between(1, 255) as u8, rng.word() | 1);
        let mut out = Guarded::filled(case.room, garbage, rng.below(8));
        let mut length = Guarded::new(&[old], old, 0);

        let (lent_chunk, lent_edits, first) = (chunk.lent(), edits.lent(), words[0].lent());
        let (lent_out, lent_length) = (out.lent_mut(), length.lent_mut());
        let given = match case.query {
            Query::TypeName(..) => (self.entries.type_name)(lent_chunk, lent_edits, first, lent_out, lent_length),
            Query::ListBinding(..) => (self.entries.list_binding)(lent_chunk, lent_edits, first, lent_out, lent_length),
            _ => (self.entries.declaration)(lent_chunk, lent_edits, first, words[1].lent(), lent_out, lent_length),
        };

        ensure(given == expected.number, || format!("answer {given}, not {}", expected.number))?;
        chunk.holds("chunk", &buffers.chunk, 0)?;
        edits.holds("edits", &buffers.edits, 0)?;
        for (lent, record) in words.iter().zip(records) {
            lent.holds("record", record, 0)?;
        }
        length.holds("length", &[expected.text.len() as u32], 0)?;
        // A refusal leaves zeros, a text leaves the bytes behind it.
        out.holds("output", &expected.text, if given == 0 { garbage } else { 0 })
    }

    fn parse(&self, text: &[u8], expected: &Answer, rng: &mut Rng) -> Result<(), String> {
        let lent = Guarded::bytes(text, rng);
        let old = rng.word() | 1;
        let mut numbers = Guarded::new(&[old; 5], old, 0);
        let given = (self.entries.parse_type)(lent.lent(), numbers.lent_mut());
        ensure(given == expected.number, || format!("answer {given}, not {}", expected.number))?;
        lent.holds("text", text, 0)?;
        numbers.holds("numbers", &expected.numbers, 0)
    }
}

/// A line for each kind: how many were answered, how many refused with each number.
pub fn counts_lines(counts: &[[u64; 4]; 4]) -> String {
    let mut lines = String::new();
    for (kind, counts) in KINDS.iter().zip(counts) {
        lines += &format!("{kind}: {} answered", counts[0]);
        for (number, count) in NUMBERS.iter().zip(counts).skip(1).filter(|(_, &count)| count > 0) {
            lines += &format!(", {count} refused {number}");
        }
        lines += "\n";
    }
    lines
}

/// The place in `NUMBERS`.
pub fn place(number: u32) -> usize {
    NUMBERS.iter().position(|&known| known == number).expect("0, 16, 17 or 18")
}

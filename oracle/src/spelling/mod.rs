//! Spelling types and listing bindings, three times as reading is: by rdef.rs (`rust`), written plainly
//! from document 01 (`model`), and by the port where its library is linked (`port`).

pub mod check;
pub mod generate;
pub mod model;
pub mod port;
pub mod rust;
mod show;
pub mod stored;

use crate::tables::{BINDING_WORDS, TYPE_WORDS, VARIABLE_WORDS};

/// The greatest length of an output, in bytes.
pub const LONGEST: usize = 65_536;

/// The two lent buffers that names lie in.
#[derive(Clone, PartialEq, Eq, Hash, Debug, Default)]
pub struct Buffers {
    pub chunk: Vec<u8>,
    pub edits: Vec<u8>,
}

pub type TypeWords = [u32; TYPE_WORDS];
pub type VariableWords = [u32; VARIABLE_WORDS];
pub type BindingWords = [u32; BINDING_WORDS];

/// What is asked: the words of a record, with the buffers that hold its names, or a text to be read.
#[derive(Clone, PartialEq, Eq, Hash, Debug)]
pub enum Query {
    TypeName(Buffers, TypeWords),
    Declaration(Buffers, TypeWords, VariableWords),
    ParseType(Vec<u8>),
    ListBinding(Buffers, BindingWords),
}

/// The kinds of query in their order. The first has number 1 in the stored sample.
pub const KINDS: [&str; 4] = ["type name", "declaration", "parse type", "list binding"];

impl Query {
    /// Its place in `KINDS`.
    pub fn kind(&self) -> usize {
        match self {
            Query::TypeName(..) => 0,
            Query::Declaration(..) => 1,
            Query::ParseType(_) => 2,
            Query::ListBinding(..) => 3,
        }
    }

    /// How many bytes are lent to be read.
    pub fn bytes(&self) -> usize {
        match self {
            Query::TypeName(buffers, _) | Query::Declaration(buffers, ..) | Query::ListBinding(buffers, _) => {
                buffers.chunk.len() + buffers.edits.len()
            }
            Query::ParseType(text) => text.len(),
        }
    }
}

/// A query with the length of the output lent for its text. Where a type is read there is none: 0.
#[derive(Clone, PartialEq, Eq, Hash, Debug)]
pub struct Case {
    pub query: Query,
    pub room: usize,
}

/// The numbers an answer can have.
pub const NUMBERS: [u32; 4] = [0, 16, 17, 18];

#[derive(Clone, PartialEq, Eq, Debug, Default)]
pub struct Answer {
    /// 0, or the refusal's.
    pub number: u32,
    /// Empty on a refusal, and where a type is read.
    pub text: Vec<u8>,
    /// Class, base, rows, columns and elements of a type that was read, else zeros.
    pub numbers: [u32; 5],
}

impl Answer {
    pub fn refused(number: u32) -> Answer {
        Answer { number, ..Answer::default() }
    }

    /// 17 comes last: for a text longer than its output, or than any output may be.
    pub fn of_text(outcome: Result<Vec<u8>, u32>, room: usize) -> Answer {
        match outcome {
            Ok(text) if text.len() > room.min(LONGEST) => Answer::refused(17),
            Ok(text) => Answer { text, ..Answer::default() },
            Err(number) => Answer::refused(number),
        }
    }

    pub fn of_numbers(outcome: Result<[u32; 5], u32>) -> Answer {
        match outcome {
            Ok(numbers) => Answer { numbers, ..Answer::default() },
            Err(number) => Answer::refused(number),
        }
    }
}

/// Spells, reads spellings and lists, with document 01's numbers 16 and 18 and room for any text.
pub trait Speller {
    fn type_name(&self, chunk: &[u8], edits: &[u8], node: &[u32]) -> Result<Vec<u8>, u32>;
    fn declaration(&self, chunk: &[u8], edits: &[u8], node: &[u32], variable: &[u32]) -> Result<Vec<u8>, u32>;
    fn parse_type(&self, text: &[u8]) -> Result<[u32; 5], u32>;
    fn list_binding(&self, chunk: &[u8], edits: &[u8], binding: &[u32]) -> Result<Vec<u8>, u32>;

    fn answer(&self, query: &Query, room: usize) -> Answer {
        match query {
            Query::TypeName(lent, node) => Answer::of_text(self.type_name(&lent.chunk, &lent.edits, node), room),
            Query::Declaration(lent, node, variable) => {
                Answer::of_text(self.declaration(&lent.chunk, &lent.edits, node, variable), room)
            }
            Query::ParseType(text) => Answer::of_numbers(self.parse_type(text)),
            Query::ListBinding(lent, binding) => {
                Answer::of_text(self.list_binding(&lent.chunk, &lent.edits, binding), room)
            }
        }
    }
}

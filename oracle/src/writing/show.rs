//! A case and an answer in words, for the first difference: numbers decimal, bytes in hex.

use super::Case;
use crate::comparison::hex;
use crate::tables::TABLE_NAMES;
use std::fmt::{Display, Formatter, Result as Shown};

impl Display for Case {
    fn fmt(&self, f: &mut Formatter<'_>) -> Shown {
        let (held, words) = (&self.held, &self.held.words);
        writeln!(f, "scratch of {} words, output of {} bytes", self.scratch, self.room)?;
        writeln!(f, "header {:?}", words.header)?;
        for (name, table) in TABLE_NAMES.iter().zip(words.tables()) {
            writeln!(f, "{name} {table:?}")?;
        }
        writeln!(f, "chunk of {} bytes: {}", held.chunk.len(), hex(&held.chunk))?;
        write!(f, "edits of {} bytes: {}", held.edits.len(), hex(&held.edits))
    }
}

pub fn outcome(outcome: &Result<Vec<u8>, u32>) -> String {
    match outcome {
        Ok(bytes) => format!("{} bytes: {}", bytes.len(), hex(bytes)),
        Err(number) => format!("refused {number}"),
    }
}

//! A case and an answer in words, for the first difference: numbers decimal, bytes in hex.

use super::{Answer, Case, Query, KINDS};
use crate::comparison::hex;
use std::fmt::{Display, Formatter, Result};

impl Display for Case {
    fn fmt(&self, f: &mut Formatter<'_>) -> Result {
        write!(f, "{}, ", KINDS[self.query.kind()])?;
        let (buffers, records) = match &self.query {
            Query::ParseType(text) => return write!(f, "text of {} bytes: {}", text.len(), hex(text)),
            Query::TypeName(buffers, node) => (buffers, format!("{node:?}")),
            Query::Declaration(buffers, node, variable) => (buffers, format!("{node:?} {variable:?}")),
            Query::ListBinding(buffers, binding) => (buffers, format!("{binding:?}")),
        };
        writeln!(f, "output of {} bytes, words {records}", self.room)?;
        writeln!(f, "chunk of {} bytes: {}", buffers.chunk.len(), hex(&buffers.chunk))?;
        write!(f, "edits of {} bytes: {}", buffers.edits.len(), hex(&buffers.edits))
    }
}

impl Display for Answer {
    fn fmt(&self, f: &mut Formatter<'_>) -> Result {
        let Answer { number, text, numbers } = self;
        write!(f, "answer {number}, text of {} bytes: {}, numbers {numbers:?}", text.len(), hex(text))
    }
}

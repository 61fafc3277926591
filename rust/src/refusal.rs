//! Why a chunk, a reflection or a text is refused.

use crate::layout::LONGEST_REFUSAL_TEXT;
use crate::raw;
use std::error::Error;
use std::fmt;

/// A refusal: one of the numbers 1 to 18 of document 01. Printed, it is the sentence that the library has for it.
#[derive(Clone, Copy, PartialEq, Eq, Hash, Debug)]
pub struct Refusal {
    /// The number.
    pub number: u32,
}

impl Refusal {
    /// The reflection is not readable, or there is no such record.
    pub(crate) const NOT_READABLE: Refusal = Refusal { number: 16 };

    /// The answer of a linked function as a result.
    #[inline]
    pub(crate) fn of(number: u32) -> Result<(), Refusal> {
        match number {
            0 => Ok(()),
            number => Err(Refusal { number }),
        }
    }
}

impl fmt::Display for Refusal {
    fn fmt(&self, f: &mut fmt::Formatter<'_>) -> fmt::Result {
        let (mut out, mut length) = ([0; LONGEST_REFUSAL_TEXT], [0]);
        // 128 bytes hold every sentence, so the answer is 0.
        let _ = raw::refusal_text(self.number, &mut out, &mut length);
        match std::str::from_utf8(&out[..length[0] as usize]) {
            Ok(sentence) if !sentence.is_empty() => f.pad(sentence),
            _ => write!(f, "refused with {}", self.number),
        }
    }
}

impl Error for Refusal {}

//! The port's four entry points for spelling and listing behind safe signatures, and the model behind
//! the same ones.

use super::model::Model;
use super::{Answer, Speller};

/// An entry point that spells or lists one record.
pub type OfRecord = fn(chunk: &[u8], edits: &[u8], record: &[u32], out: &mut [u8], length: &mut [u32]) -> u32;

/// One that takes a type node and a variable.
pub type OfTwo =
    fn(chunk: &[u8], edits: &[u8], node: &[u32], variable: &[u32], out: &mut [u8], length: &mut [u32]) -> u32;

/// One that reads a text.
pub type OfText = fn(text: &[u8], numbers: &mut [u32]) -> u32;

/// Each answers 0 or the refusal's number. `length` has one word, `numbers` five.
#[derive(Clone, Copy)]
pub struct Entries {
    pub type_name: OfRecord,
    pub declaration: OfTwo,
    pub parse_type: OfText,
    pub list_binding: OfRecord,
}

/// The model as such entry points. It stands in for the port where the library is not linked.
pub const MODEL: Entries = Entries {
    type_name: |chunk, edits, node, out, length| put(Model.type_name(chunk, edits, node), out, length),
    declaration: |chunk, edits, node, variable, out, length| {
        put(Model.declaration(chunk, edits, node, variable), out, length)
    },
    parse_type: |text, numbers| {
        let answer = Answer::of_numbers(Model.parse_type(text));
        numbers.copy_from_slice(&answer.numbers);
        answer.number
    },
    list_binding: |chunk, edits, binding, out, length| put(Model.list_binding(chunk, edits, binding), out, length),
};

/// The text into the output, whose other bytes stay; or zeros.
fn put(outcome: Result<Vec<u8>, u32>, out: &mut [u8], length: &mut [u32]) -> u32 {
    let answer = Answer::of_text(outcome, out.len());
    if answer.number == 0 {
        out[..answer.text.len()].copy_from_slice(&answer.text);
    } else {
        out.fill(0);
    }
    length[0] = answer.text.len() as u32;
    answer.number
}

#[cfg(feature = "library")]
pub use library::PORT;

#[cfg(feature = "library")]
mod library {
    use super::Entries;

    extern "C" {
        fn nontrefalcu_type_name(
            chunk: *const u8,
            chunk_len: usize,
            edits: *const u8,
            edits_len: usize,
            type_words: *const u32,
            type_words_len: usize,
            out: *mut u8,
            out_len: usize,
            length: *mut u32,
            length_len: usize,
        ) -> u32;
        fn nontrefalcu_declaration(
            chunk: *const u8,
            chunk_len: usize,
            edits: *const u8,
            edits_len: usize,
            type_words: *const u32,
            type_words_len: usize,
            variable_words: *const u32,
            variable_words_len: usize,
            out: *mut u8,
            out_len: usize,
            length: *mut u32,
            length_len: usize,
        ) -> u32;
        fn nontrefalcu_parse_type(text: *const u8, text_len: usize, numbers: *mut u32, numbers_len: usize) -> u32;
        fn nontrefalcu_list_binding(
            chunk: *const u8,
            chunk_len: usize,
            edits: *const u8,
            edits_len: usize,
            binding_words: *const u32,
            binding_words_len: usize,
            out: *mut u8,
            out_len: usize,
            length: *mut u32,
            length_len: usize,
        ) -> u32;
    }

    /// The port.
    pub const PORT: Entries = Entries { type_name, declaration, parse_type, list_binding };

    // Inlined, so that a program that does not call them links with a library that has them not. In each
    // a pointer goes with its own slice's length, and the borrows keep the slices apart.

    #[inline]
    fn type_name(chunk: &[u8], edits: &[u8], node: &[u32], out: &mut [u8], length: &mut [u32]) -> u32 {
        unsafe {
            nontrefalcu_type_name(
                chunk.as_ptr(),
                chunk.len(),
                edits.as_ptr(),
                edits.len(),
                node.as_ptr(),
                node.len(),
                out.as_mut_ptr(),
                out.len(),
                length.as_mut_ptr(),
                length.len(),
            )
        }
    }

    #[inline]
    fn declaration(
        chunk: &[u8],
        edits: &[u8],
        node: &[u32],
        variable: &[u32],
        out: &mut [u8],
        length: &mut [u32],
    ) -> u32 {
        unsafe {
            nontrefalcu_declaration(
                chunk.as_ptr(),
                chunk.len(),
                edits.as_ptr(),
                edits.len(),
                node.as_ptr(),
                node.len(),
                variable.as_ptr(),
                variable.len(),
                out.as_mut_ptr(),
                out.len(),
                length.as_mut_ptr(),
                length.len(),
            )
        }
    }

    #[inline]
    fn parse_type(text: &[u8], numbers: &mut [u32]) -> u32 {
        unsafe { nontrefalcu_parse_type(text.as_ptr(), text.len(), numbers.as_mut_ptr(), numbers.len()) }
    }

    #[inline]
    fn list_binding(chunk: &[u8], edits: &[u8], binding: &[u32], out: &mut [u8], length: &mut [u32]) -> u32 {
        unsafe {
            nontrefalcu_list_binding(
                chunk.as_ptr(),
                chunk.len(),
                edits.as_ptr(),
                edits.len(),
                binding.as_ptr(),
                binding.len(),
                out.as_mut_ptr(),
                out.len(),
                length.as_mut_ptr(),
                length.len(),
            )
        }
    }
}

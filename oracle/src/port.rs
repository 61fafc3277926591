//! The port's exported function behind a safe signature, and the model behind the same one.

use crate::model;
use crate::tables::{Answer, Rooms};

/// Reads a chunk into a lent header of 12 words and four lent tables: 0, or the refusal's number.
pub type Reader = fn(chunk: &[u8], header: &mut [u32], tables: [&mut [u32]; 4]) -> u32;

/// The model as such a reader. It stands in for the port where the library is not linked.
pub fn model(chunk: &[u8], header: &mut [u32], tables: [&mut [u32]; 4]) -> u32 {
    let rooms = Rooms::lent([tables[0].len(), tables[1].len(), tables[2].len(), tables[3].len()]);
    let (number, answer) = match model::read(chunk, &rooms) {
        Ok(answer) => (0, answer),
        Err(number) => (number, Answer::default()),
    };
    header.copy_from_slice(&answer.header);
    for (table, words) in tables.into_iter().zip(answer.tables()) {
        let (records, rest) = table.split_at_mut(words.len());
        records.copy_from_slice(words);
        rest.fill(0);
    }
    number
}

#[cfg(feature = "library")]
pub use library::port;

#[cfg(feature = "library")]
mod library {
    extern "C" {
        fn nontrefalcu_parse_rdef(
            chunk: *const u8,
            chunk_len: usize,
            header: *mut u32,
            header_len: usize,
            bindings: *mut u32,
            bindings_len: usize,
            buffers: *mut u32,
            buffers_len: usize,
            variables: *mut u32,
            variables_len: usize,
            types: *mut u32,
            types_len: usize,
        ) -> u32;
    }

    /// The port.
    pub fn port(chunk: &[u8], header: &mut [u32], tables: [&mut [u32]; 4]) -> u32 {
        let [bindings, buffers, variables, types] = tables;
        // Each pointer goes with its own slice's length, and the borrows keep the slices apart.
        unsafe {
            nontrefalcu_parse_rdef(
                chunk.as_ptr(),
                chunk.len(),
                header.as_mut_ptr(),
                header.len(),
                bindings.as_mut_ptr(),
                bindings.len(),
                buffers.as_mut_ptr(),
                buffers.len(),
                variables.as_mut_ptr(),
                variables.len(),
                types.as_mut_ptr(),
                types.len(),
            )
        }
    }
}

//! The port's exported writer behind a safe signature, and the model behind the same one.

use super::{write, Case, Held};
use crate::tables::Answer;

/// What a writer is lent to read: the chunk, the text of edits, the header's 12 words and the four tables.
pub struct Lent<'a> {
    pub chunk: &'a [u8],
    pub edits: &'a [u8],
    pub header: &'a [u32],
    pub tables: [&'a [u32]; 4],
}

/// Writes the canonical form: 0, and its length in the first word of `length`; or the refusal's number.
pub type Writer = fn(lent: &Lent<'_>, scratch: &mut [u32], out: &mut [u8], length: &mut [u32]) -> u32;

/// The model and rdef.rs as such a writer. It stands in for the port where the library is not linked.
pub fn model(lent: &Lent<'_>, scratch: &mut [u32], out: &mut [u8], length: &mut [u32]) -> u32 {
    let [bindings, buffers, variables, types] = lent.tables.map(<[u32]>::to_vec);
    let header = lent.header.try_into().expect("twelve words");
    let words = Answer { header, bindings, buffers, variables, types };
    let held = Held { chunk: lent.chunk.to_vec(), edits: lent.edits.to_vec(), words };
    let outcome = write(&Case { held, scratch: scratch.len(), room: out.len() });
    scratch.fill(0);
    length.fill(0);
    match outcome {
        Ok(bytes) => {
            out[..bytes.len()].copy_from_slice(&bytes);
            length[0] = bytes.len() as u32;
            0
        }
        Err(number) => {
            out.fill(0);
            number
        }
    }
}

#[cfg(feature = "library")]
pub use library::port;

#[cfg(feature = "library")]
mod library {
    use super::Lent;

    extern "C" {
        fn nontrefalcu_write_canonical(
            chunk: *const u8,
            chunk_len: usize,
            edits: *const u8,
            edits_len: usize,
            header: *const u32,
            header_len: usize,
            bindings: *const u32,
            bindings_len: usize,
            buffers: *const u32,
            buffers_len: usize,
            variables: *const u32,
            variables_len: usize,
            types: *const u32,
            types_len: usize,
            scratch: *mut u32,
            scratch_len: usize,
            out: *mut u8,
            out_len: usize,
            length: *mut u32,
            length_len: usize,
        ) -> u32;
    }

    /// The port. Inlined, so that a program that does not call it links with a library that has it not.
    #[inline]
    pub fn port(lent: &Lent<'_>, scratch: &mut [u32], out: &mut [u8], length: &mut [u32]) -> u32 {
        let [bindings, buffers, variables, types] = lent.tables;
        // Each pointer goes with its own slice's length, and the borrows keep the slices apart.
        unsafe {
            nontrefalcu_write_canonical(
                lent.chunk.as_ptr(),
                lent.chunk.len(),
                lent.edits.as_ptr(),
                lent.edits.len(),
                lent.header.as_ptr(),
                lent.header.len(),
                bindings.as_ptr(),
                bindings.len(),
                buffers.as_ptr(),
                buffers.len(),
                variables.as_ptr(),
                variables.len(),
                types.as_ptr(),
                types.len(),
                scratch.as_mut_ptr(),
                scratch.len(),
                out.as_mut_ptr(),
                out.len(),
                length.as_mut_ptr(),
                length.len(),
            )
        }
    }
}

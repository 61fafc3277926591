//! The reading of RDEF chunks, three times: the Rust that is ported (`rdef`, unchanged), a plain reader
//! written from document 01 (`model`), and the port itself where its library is linked (`port`).
//! `words` and `model` give the same words, so that all three can be compared word for word.
//! `spelling` has the same three for spelling types and listing bindings; `writing` holds the canonical form
//! to rdef.rs, and `report` the lines that the port's program prints of a chunk.

// What rdef.rs expects of the crate around it.
extern crate alloc;

/// The trait of the module above rdef.rs, as far as rdef.rs uses it.
pub trait ChunkWriter {
    fn fourcc(&self) -> [u8; 4];
    fn write_payload(&self) -> Vec<u8>;
}

// `pub mod rdef`, made by build.rs from rdef.rs and after_rdef.rs.
include!(concat!(env!("OUT_DIR"), "/rdef_module.rs"));

pub mod arguments;
pub mod check;
pub mod comparison;
pub mod generate;
pub mod guarded;
pub mod model;
pub mod port;
pub mod report;
pub mod spelling;
pub mod tables;
pub mod utf8;
pub mod words;
pub mod writing;

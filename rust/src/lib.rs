//! RDEF reflection chunks: bindings, constant buffers, variables, types and default values, as a shader compiler leaves them.
//!
//! The work is done by a library that is proved: no chunk can make it read or write out of bounds, panic or run for ever, and what it answers is
//! what its definitions say. This crate hands its tables out as views, whose names follow `rdef.rs`; its interface is not the same. No call
//! panics, and a thread with 64 KiB of stack can make them all (docs/ROOM.md has what each takes).
//!
//! ```
//! # let chunk: &[u8] = include_bytes!("../../samples/surtitle.5.rdef");
//! let mut def = nontrefalcu::parse_rdef(chunk)?;
//! for binding in def.bindings() {
//!     println!("{binding}");
//! }
//! for variable in def.constant_buffers().flat_map(|buffer| buffer.variables()) {
//!     println!("{} at {}", variable.declaration()?, variable.offset);
//! }
//! def.set_default_value(2, &0.5f32.to_le_bytes())?;
//! let edited: Vec<u8> = def.canonical()?;
//! # Ok::<(), nontrefalcu::Refusal>(())
//! ```

#![deny(unsafe_code)]
#![warn(missing_docs)]

mod edit;
pub mod layout;
#[allow(unsafe_code)]
pub mod raw;
mod refusal;
mod resource_def;
mod spelling;
mod views;

pub use refusal::Refusal;
pub use resource_def::{parse_rdef, Rd11Header, ResourceDef};
pub use spelling::{hlsl_type_name, parse_hlsl_type};
pub use views::{
    Bindings, CBufferDef, CBufferVariable, ConstantBuffers, MemberDesc, Members, ResourceBinding, TypeDesc, Variables,
};

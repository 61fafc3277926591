//! What the tests share: how many cases to try, and a reflection held to rdef.rs field by field.
#![allow(dead_code)]

use nontrefalcu::{CBufferVariable, ResourceBinding, ResourceDef, TypeDesc};
use oracle::rdef;

/// So many cases of each kind: CASES, or as many as a short run takes.
pub fn cases() -> u64 {
    std::env::var("CASES").ok().and_then(|words| words.parse().ok()).unwrap_or(20_000)
}

/// The seed: SEED, or always the same.
pub fn seed() -> u64 {
    std::env::var("SEED").ok().and_then(|words| words.parse().ok()).unwrap_or(1)
}

/// Every field, name and default value of the two.
pub fn assert_same(def: &ResourceDef<'_>, by_rust: &rdef::ResourceDef<'_>) {
    assert_eq!(def.target_version(), by_rust.target_version);
    assert_eq!(def.compile_flags(), by_rust.compile_flags);
    assert_eq!(def.creator(), by_rust.creator);
    let words =
        |header: rdef::Rd11Header| [header.identifier, header.resource_binding_stride, header.interface_slot_count];
    assert_eq!(
        def.rd11().map(|rd11| [rd11.identifier, rd11.resource_binding_stride, rd11.interface_slot_count]),
        by_rust.rd11.map(words)
    );
    assert_eq!(def.bindings().len(), by_rust.bindings.len());
    for (ours, theirs) in def.bindings().zip(&by_rust.bindings) {
        same_binding(&ours, theirs);
    }
    assert_eq!(def.constant_buffers().len(), by_rust.constant_buffers.len());
    for (ours, theirs) in def.constant_buffers().zip(&by_rust.constant_buffers) {
        assert_eq!(ours.name, theirs.name);
        assert_eq!([ours.size, ours.flags, ours.cb_type], [theirs.size, theirs.flags, theirs.cb_type]);
        assert_eq!(ours.variables().len(), theirs.variables.len());
        for (ours, theirs) in ours.variables().zip(&theirs.variables) {
            same_variable(&ours, theirs);
        }
    }
}

fn same_binding(ours: &ResourceBinding<'_>, theirs: &rdef::ResourceBinding<'_>) {
    assert_eq!(ours.name, theirs.name);
    let fields = [
        (ours.input_type, theirs.input_type),
        (ours.return_type, theirs.return_type),
        (ours.dimension, theirs.dimension),
        (ours.num_samples, theirs.num_samples),
        (ours.bind_point, theirs.bind_point),
        (ours.bind_count, theirs.bind_count),
        (ours.flags, theirs.flags),
        (ours.space, theirs.space),
        (ours.id, theirs.id),
    ];
    assert!(fields.iter().all(|(ours, theirs)| ours == theirs), "{fields:?}");
}

fn same_variable(ours: &CBufferVariable<'_>, theirs: &rdef::CBufferVariable<'_>) {
    assert_eq!(ours.name, theirs.name);
    assert_eq!([ours.offset, ours.size, ours.flags], [theirs.offset, theirs.size, theirs.flags]);
    assert_eq!(ours.default_value, &*theirs.default_value);
    assert_eq!(
        [ours.texture_start, ours.texture_size, ours.sampler_start, ours.sampler_size],
        [theirs.texture_start, theirs.texture_size, theirs.sampler_start, theirs.sampler_size]
    );
    same_type(&ours.var_type, &theirs.var_type);
}

fn same_type(ours: &TypeDesc<'_>, theirs: &rdef::TypeDesc<'_>) {
    assert_eq!(
        [ours.class, ours.var_type, ours.rows, ours.columns, ours.elements],
        [theirs.class, theirs.var_type, theirs.rows, theirs.columns, theirs.elements]
    );
    assert_eq!(ours.sm5_extra, theirs.sm5_extra);
    assert_eq!(ours.name, theirs.name);
    assert_eq!(ours.members().len(), theirs.members.len());
    for (ours, theirs) in ours.members().zip(&theirs.members) {
        assert_eq!(ours.name, theirs.name);
        assert_eq!(ours.offset, theirs.offset);
        same_type(&ours.member_type, &theirs.member_type);
    }
}

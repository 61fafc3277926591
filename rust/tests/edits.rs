//! Edited reflections held to rdef.rs: the same edits are made there, and fields, canonical form and payload must be equal.

mod common;

use common::{assert_same, cases, seed};
use nontrefalcu::{parse_rdef, Refusal, ResourceDef};
use oracle::generate::rng::Rng;
use oracle::generate::texts::identifier;
use oracle::generate::{fixed_chunks, Generator};
use oracle::rdef::{self, TypeDesc};
use oracle::writing::generate::fields::{variables, What};
use oracle::ChunkWriter;
use std::borrow::Cow;

const NOT_READABLE: Refusal = Refusal { number: 16 };

/// The name of a type node, or its name as a member, by the node's number in walk order; None where there is none.
fn rename<'a>(desc: &mut TypeDesc<'a>, left: &mut usize, what: What, name: &str) -> Option<bool> {
    if *left == 0 {
        if what == What::Type {
            desc.name = Cow::Owned(name.to_owned());
        }
        return Some(what == What::Type);
    }
    *left -= 1;
    for member in &mut desc.members {
        if *left == 0 && what == What::Member {
            member.name = Cow::Owned(name.to_owned());
            return Some(true);
        }
        if let Some(done) = rename(&mut member.member_type, left, what, name) {
            return Some(done);
        }
    }
    None
}

/// Makes one edit on both sides; both or neither must be changed.
fn make(what: What, index: usize, rng: &mut Rng, ours: &mut ResourceDef<'_>, theirs: &mut rdef::ResourceDef<'_>) {
    let name = match rng.below(8) {
        0 => String::new(),
        1 => "schöne Zeile → 字幕 𝄞".to_owned(),
        _ => String::from_utf8(identifier(rng, 1, 20)).expect("an identifier"),
    };
    let owned: Cow<'_, str> = Cow::Owned(name.clone());
    let (done, answer) = match what {
        What::Creator => {
            theirs.creator = Cow::Owned(name.clone());
            (true, ours.set_creator(&name))
        }
        What::Binding => {
            let done = theirs.bindings.get_mut(index).map(|binding| binding.name = Cow::Owned(name.clone()));
            (done.is_some(), ours.set_binding_name(index, &name))
        }
        What::Buffer => {
            let done = theirs.constant_buffers.get_mut(index).map(|buffer| buffer.name = Cow::Owned(name.clone()));
            (done.is_some(), ours.set_buffer_name(index, &name))
        }
        What::Variable => {
            let done = variables(theirs).get_mut(index).map(|variable| variable.name = Cow::Owned(name.clone()));
            (done.is_some(), ours.set_variable_name(index, &name))
        }
        What::Default => {
            let size = variables(theirs).get(index).map_or(4, |variable| variable.size as usize).min(70_000);
            let value: Vec<u8> = match rng.below(4) {
                0 => Vec::new(),
                1 => vec![7; size],
                2 => vec![rng.byte(); size + 1],
                _ => (0..size).map(|_| rng.byte()).collect(),
            };
            let answer = ours.set_default_value(index, &value);
            // rdef.rs writes any size, and has no limit to its edits.
            let done = match variables(theirs).get_mut(index) {
                Some(variable) if value.is_empty() || value.len() == variable.size as usize && answer.is_ok() => {
                    variable.default_value = Cow::Owned(value);
                    true
                }
                _ => false,
            };
            (done, answer)
        }
        What::Type | What::Member => {
            let is_major_5 = theirs.rd11.is_some();
            let allowed = what == What::Member || is_major_5 || owned.is_empty();
            let mut left = index;
            let done = allowed
                && variables(theirs)
                    .into_iter()
                    .find_map(|variable| rename(&mut variable.var_type, &mut left, what, &name))
                    .unwrap_or(false);
            let answer =
                if what == What::Type { ours.set_type_name(index, &name) } else { ours.set_member_name(index, &name) };
            (done, answer)
        }
    };
    assert_eq!(answer, if done { Ok(()) } else { Err(NOT_READABLE) }, "{what:?} {index} {name:?}");
}

#[test]
fn edits_are_written_as_by_rdef_rs() {
    let generator = Generator::new(seed() + 4);
    let mut rng = Rng::new(seed() + 4, u64::MAX);
    let mut number = 0;
    for _ in 0..cases() {
        let (chunk, mut ours) = loop {
            let chunk = generator.chunk(number).1;
            number += 1;
            if let Ok(def) = parse_rdef(&chunk) {
                break (chunk.clone(), def.into_owned());
            }
        };
        let mut theirs = rdef::parse_rdef(&chunk).expect("by rdef.rs too");
        for _ in 0..rng.between(1, 6) {
            let what = rng.pick(&What::ALL);
            let index = rng.below(12);
            make(what, index, &mut rng, &mut ours, &mut theirs);
        }
        assert_same(&ours, &theirs);
        let payload = theirs.write_payload();
        theirs.original_data = None;
        let canonical = theirs.write_payload();
        let expected =
            |bytes: &[u8]| if bytes.len() > 65_536 { Err(Refusal { number: 17 }) } else { Ok(bytes.to_vec()) };
        assert_eq!(ours.canonical(), expected(&canonical));
        assert_eq!(
            ours.payload().map(Cow::into_owned),
            if payload == chunk { Ok(payload) } else { expected(&payload) }
        );
    }
}

#[test]
fn edits_that_could_not_be_read_are_refused() {
    let chunk = include_bytes!("../../samples/nested.4.rdef");
    let mut def = parse_rdef(chunk).expect("a sample");
    assert_eq!(def.set_creator("a\0b"), Err(NOT_READABLE));
    assert_eq!(def.set_binding_name(usize::MAX, "a"), Err(NOT_READABLE));
    assert_eq!(def.set_type_name(0, "a"), Err(NOT_READABLE));
    assert_eq!(def.set_member_name(0, "a"), Err(NOT_READABLE));
    assert_eq!(def.set_default_value(0, &[1]), Err(NOT_READABLE));
    assert_same(&def, &rdef::parse_rdef(chunk).expect("a sample"));
}

/// Whether each node of a type is a variable's own type, in walk order.
fn roots(desc: &TypeDesc<'_>, is_root: bool, nodes: &mut Vec<bool>) {
    nodes.push(is_root);
    for member in &desc.members {
        roots(&member.member_type, false, nodes);
    }
}

/// Every node of a chunk that reads, and one more, is renamed as a member or refused, by what rdef.rs reads.
fn hold_members(chunk: &[u8]) {
    let Ok(mut def) = parse_rdef(chunk) else { return };
    let mut nodes = Vec::new();
    for variable in variables(&mut rdef::parse_rdef(chunk).expect("by rdef.rs too")) {
        roots(&variable.var_type, true, &mut nodes);
    }
    nodes.push(true);
    for (index, is_root) in nodes.into_iter().enumerate() {
        assert_eq!(def.set_member_name(index, "m"), if is_root { Err(NOT_READABLE) } else { Ok(()) }, "node {index}");
    }
}

#[test]
fn members_are_told_from_types_of_variables() {
    for fixed in fixed_chunks() {
        hold_members(&fixed.bytes);
    }
    let generator = Generator::new(seed() + 6);
    for number in 0..cases() / 4 {
        hold_members(&generator.chunk(number).1);
    }
}

#[test]
fn edits_that_nothing_uses_any_more_make_room() {
    let chunk = include_bytes!("../../samples/nested.5.rdef");
    let mut def = parse_rdef(chunk).expect("a sample");
    let mut theirs = rdef::parse_rdef(chunk).expect("a sample");
    let long = "n".repeat(30_000);
    for (index, name) in ["kept", &long].into_iter().enumerate() {
        def.set_variable_name(index, name).expect("room");
        theirs.constant_buffers[0].variables[index].name = Cow::Owned(name.to_owned());
    }
    for turn in 0..20 {
        let name = format!("{turn}{}", "m".repeat(30_000));
        def.set_creator(&name).expect("room once the last creator is dropped");
        theirs.creator = Cow::Owned(name);
        assert_same(&def, &theirs);
    }
    assert_eq!(def.set_creator(&"m".repeat(40_000)), Err(NOT_READABLE));
    assert_same(&def, &theirs);
}

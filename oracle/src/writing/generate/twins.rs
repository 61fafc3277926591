//! Two variables whose types are equal but for one thing, at the root or somewhere below it.

use super::fixed::Named;
use super::lay::{lay, Style};
use crate::generate::rng::Rng;
use crate::rdef::{CBufferDef, CBufferVariable, MemberDesc, Rd11Header, ResourceDef, TypeDesc};
use std::borrow::Cow;

/// What the second type has otherwise. A root has no member name or offset.
const CHANGES: [&str; 14] = [
    "nothing",
    "class",
    "variable type",
    "rows",
    "columns",
    "elements",
    "extra word 0",
    "extra word 1",
    "extra word 2",
    "extra word 3",
    "type name",
    "a member less",
    "member name",
    "member offset",
];

/// Members that lead from the root to the type that is changed.
const PATHS: [&[usize]; 5] = [&[], &[0], &[1], &[0, 1], &[0, 0, 0]];

pub fn all() -> Vec<Named> {
    let mut named = Vec::new();
    for major in [4, 5] {
        for path in PATHS {
            for change in CHANGES {
                let mut second = first(major);
                if apply(&mut second, path, change, major).is_some() {
                    let def = resource_def(major, [first(major), second, first(major)]);
                    let edits = named.len() % 2 == 0;
                    let style = Style { chunk: !edits, edits, shared: named.len() % 3 == 0 };
                    let held = lay(&def, style, &mut Rng::new(0, 0));
                    named.push((format!("major {major}, {change} at {path:?}"), held));
                }
            }
        }
    }
    named
}

/// A struct that holds another, and that again another, with equal types side by side and above each other.
fn first(major: u32) -> TypeDesc<'static> {
    let leaf = type_desc(major, 0, "", Vec::new());
    let inner = type_desc(major, 5, "In", vec![member("z", leaf.clone(), 0), member("y", leaf.clone(), 4)]);
    let middle = type_desc(major, 5, "Mid", vec![member("z", inner.clone(), 0), member("in", inner, 16)]);
    type_desc(major, 5, "Out", vec![member("mid", middle, 0), member("y", leaf, 32)])
}

fn type_desc(major: u32, class: u16, name: &'static str, members: Vec<MemberDesc<'static>>) -> TypeDesc<'static> {
    TypeDesc {
        class,
        var_type: 3,
        rows: 1,
        columns: 4,
        elements: 0,
        members,
        sm5_extra: (major == 5).then_some([1, 2, 3, 4]),
        name: Cow::Borrowed(if major == 5 { name } else { "" }),
    }
}

fn member(name: &'static str, member_type: TypeDesc<'static>, offset: u32) -> MemberDesc<'static> {
    MemberDesc { name: Cow::Borrowed(name), member_type, offset }
}

/// None where there is no such thing to be changed.
fn apply(root: &mut TypeDesc<'static>, path: &[usize], change: &str, major: u32) -> Option<()> {
    let mut kind = root;
    let mut as_member: Option<(&mut Cow<'static, str>, &mut u32)> = None;
    for &index in path {
        let MemberDesc { name, member_type, offset } = kind.members.get_mut(index)?;
        as_member = Some((name, offset));
        kind = member_type;
    }
    match change {
        "nothing" => (),
        "class" => kind.class ^= 1,
        "variable type" => kind.var_type += 1,
        "rows" => kind.rows += 1,
        "columns" => kind.columns += 1,
        "elements" => kind.elements = 2,
        "type name" if major == 5 => kind.name = Cow::Borrowed("Other"),
        "a member less" => drop(kind.members.pop()?),
        "member name" => *as_member?.0 = Cow::Borrowed("q"),
        "member offset" => *as_member?.1 += 1,
        extra => kind.sm5_extra.as_mut()?[extra.strip_prefix("extra word ")?.parse::<usize>().ok()?] += 1,
    }
    Some(())
}

fn resource_def(major: u32, types: [TypeDesc<'static>; 3]) -> ResourceDef<'static> {
    let slot = (major == 5).then_some(0);
    let variable = |(index, var_type): (usize, TypeDesc<'static>)| CBufferVariable {
        name: Cow::Borrowed(["a", "b", "c"][index]),
        offset: 0,
        size: 4,
        flags: 2,
        var_type,
        default_value: Cow::Borrowed(&[]),
        texture_start: slot,
        texture_size: slot,
        sampler_start: slot,
        sampler_size: slot,
    };
    let variables = types.into_iter().enumerate().map(variable).collect();
    ResourceDef {
        constant_buffers: vec![CBufferDef { name: Cow::Borrowed("b"), variables, size: 16, flags: 0, cb_type: 0 }],
        bindings: Vec::new(),
        creator: Cow::Borrowed(""),
        target_version: major << 8,
        compile_flags: 0,
        rd11: (major == 5).then_some(Rd11Header::SM5_0),
        original_data: None,
        original_canonical: None,
    }
}

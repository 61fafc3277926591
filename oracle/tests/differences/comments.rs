//! "The Rust's own comments and its tables".

use crate::port::{canonical, held, read};
use oracle::generate::fixed::plain;
use oracle::generate::plan::{rd11, Buffer, Member, Plan, Type, Variable, RD11, SM5_1};
use oracle::generate::samples;
use oracle::rdef::{hlsl_type_name, parse_rdef, ResourceDimension, ResourceInputType, TypeDesc};
use std::borrow::Cow;

/// One buffer `fade` in major 4 with a variable `fade` of each of these types.
fn variables_of(types: Vec<Type>, roots: &[usize]) -> Vec<u8> {
    let variable = |&of: &usize| Variable { name: b"fade".to_vec(), of, ..Variable::default() };
    let mut plan = Plan { types, ..Plan::empty(4) };
    plan.arrays = vec![roots.iter().map(variable).collect()];
    plan.buffers = vec![Buffer { name: b"fade".to_vec(), count: roots.len(), ..Buffer::default() }];
    plain(&plan).bytes
}

fn float() -> Type {
    Type { halves: [0, 3, 1, 1, 0], ..Type::default() }
}

fn struct_of(of: usize) -> Type {
    let members = vec![Member { name: b"m".to_vec(), of, offset: 0 }];
    Type { halves: [5, 0, 1, 1, 0], members, ..Type::default() }
}

/// What the Rust writes, which the port writes too.
fn written(chunk: &[u8]) -> Vec<u8> {
    let bytes = parse_rdef(chunk).and_then(|reflection| reflection.original_canonical).expect("the Rust reads it");
    assert_eq!(canonical(&held(chunk)).as_ref(), Ok(&bytes));
    bytes
}

/// How often the bytes stand in the chunk.
fn count(chunk: &[u8], bytes: &[u8]) -> usize {
    chunk.windows(bytes.len()).filter(|window| *window == bytes).count()
}

#[test]
fn resourcebinding_dimension() {
    assert_eq!(ResourceDimension::from_u32(3), Some(ResourceDimension::Texture1DArray));
    assert_eq!(ResourceDimension::from_u32(4), Some(ResourceDimension::Texture2D));
}

#[test]
fn rd11header_resource_binding_stride() {
    for identifier in [RD11, SM5_1] {
        for stride in [32, 40] {
            let chunk = plain(&Plan { rd11: Some(rd11(identifier, stride, 0)), ..Plan::empty(5) }).bytes;
            let given = parse_rdef(&chunk).and_then(|reflection| reflection.rd11).expect("the Rust reads it");
            assert_eq!((given.identifier, given.resource_binding_stride), (identifier, stride));
            assert_eq!(read(&chunk).expect("it reads").header[5..7], [identifier, stride]);
        }
    }
}

#[test]
fn typedesc_name() {
    let sample = samples::all().into_iter().find(|sample| sample.name == "surtitle.5").expect("it is a sample");
    let reflection = parse_rdef(&sample.bytes).expect("the Rust reads it");
    let glyphs = &reflection.constant_buffers[0].variables[0];
    assert_eq!((glyphs.name.as_ref(), glyphs.var_type.class, glyphs.var_type.name.as_ref()), ("glyphs", 1, "uint4"));
}

#[test]
fn hlsl_type_name_of_an_object() {
    let object = TypeDesc {
        class: 4,
        var_type: 3,
        rows: 1,
        columns: 1,
        elements: 0,
        members: Vec::new(),
        sm5_extra: None,
        name: Cow::Borrowed("Texture2D"),
    };
    assert_eq!(hlsl_type_name(&object), None);
    assert_eq!(hlsl_type_name(&TypeDesc { class: 5, ..object }).as_deref(), Some("Texture2D"));
}

#[test]
fn intern() {
    assert_eq!(count(&written(&variables_of(vec![float()], &[0])), b"fade\0"), 2);
}

#[test]
fn place_type() {
    let bytes = written(&variables_of(vec![float(), struct_of(0)], &[1]));
    let again = parse_rdef(&bytes).expect("it reads back");
    let members = &again.constant_buffers[0].variables[0].var_type.members;
    assert_eq!((members.len(), members[0].name.as_ref(), members[0].member_type.var_type), (1, "m", 3));
    assert_eq!(again.original_canonical, Some(bytes.clone()));
}

#[test]
fn place_type_on_members() {
    // A float as the member of two structs is written once; one level deeper it is written anew.
    let float_bytes = [0, 0, 3, 0, 1, 0, 1, 0, 0, 0, 0, 0, 0, 0, 0, 0];
    let array = Type { halves: [5, 0, 1, 1, 2], ..struct_of(0) };
    for (types, roots, copies) in
        [(vec![float(), struct_of(0), array], [1, 2], 1), (vec![float(), struct_of(0), struct_of(1)], [1, 2], 2)]
    {
        assert_eq!(count(&written(&variables_of(types, &roots)), &float_bytes), copies);
    }
}

#[test]
fn listed_names() {
    let names = [12, 13].map(|number| ResourceInputType::from_u32(number).map(ResourceInputType::name));
    assert_eq!(names, [Some("rt_acceleration_structure"), Some("uav_feedback_texture")]);
}

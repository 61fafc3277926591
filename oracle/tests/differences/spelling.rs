//! "Spelling and listing beside the Rust".

use crate::port::spelled;
use oracle::rdef::{hlsl_type_name, MemberDesc, ResourceBinding, TypeDesc};
use oracle::spelling::generate::examples::{binding, in_chunk, node, with_name};
use oracle::spelling::Query;
use std::borrow::Cow;

/// A type of the Rust without members: class, variable type, one row, one column.
fn leaf(class: u16, var_type: u16, name: &str) -> TypeDesc<'_> {
    TypeDesc {
        class,
        var_type,
        rows: 1,
        columns: 1,
        elements: 0,
        members: Vec::new(),
        sm5_extra: None,
        name: Cow::Borrowed(name),
    }
}

#[test]
fn members() {
    let member = MemberDesc { name: Cow::Borrowed(""), member_type: leaf(0, 3, ""), offset: 0 };
    for (count, number) in [(65_535, 0), (65_536, 16)] {
        let spelling = hlsl_type_name(&TypeDesc { members: vec![member.clone(); count], ..leaf(0, 3, "S") });
        assert_eq!(spelling.as_deref(), Some("S"));
        let (buffers, words) = with_name(node([0, 3, 1, 1, 0, count as u32]), 10, b"S");
        assert_eq!(spelled(&Query::TypeName(buffers, words), 1).number, number);
    }
}

#[test]
fn a_spelling_over_65_536_bytes() {
    for (length, number) in [(65_536, 0), (65_537, 17)] {
        let name = "S".repeat(length);
        assert_eq!(hlsl_type_name(&leaf(5, 0, &name)).as_ref(), Some(&name));
        let (buffers, words) = with_name(node([5, 0, 1, 1, 0, 0]), 10, name.as_bytes());
        assert_eq!(spelled(&Query::TypeName(buffers, words), 70_000).number, number);
    }
}

#[test]
fn output_too_small() {
    assert_eq!(hlsl_type_name(&leaf(0, 2, "")).as_deref(), Some("int"));
    let query = Query::TypeName(in_chunk(b""), node([0, 2, 1, 1, 0, 0]));
    assert_eq!(spelled(&query, 2).number, 17);
    assert_eq!(spelled(&query, 3).text, b"int");
}

#[test]
fn a_name_out_of_place_or_not_utf_8_a_field_of_65_536_or_more() {
    let float = node([0, 3, 1, 1, 0, 0]);
    let number = |chunk: &[u8], words| spelled(&Query::TypeName(in_chunk(chunk), words), 5).number;
    let changed = |at: usize, word: u32| {
        let mut words = float;
        words[at] = word;
        words
    };
    assert_eq!(number(b"", float), 0);
    assert_eq!(number(b"", changed(10, 2)), 16);
    assert_eq!(number(b"\xff", changed(12, 1)), 16);
    assert_eq!(number(b"", changed(0, 65_536)), 16);
}

#[test]
fn a_listing_over_65_536_bytes() {
    for (length, number) in [(65_503, 0), (65_504, 17)] {
        let name = "n".repeat(length);
        let (buffers, words) = with_name(binding([2, 4, 0, 1, 0]), 0, name.as_bytes());
        let listed = ResourceBinding {
            name: Cow::Borrowed(&name),
            input_type: 2,
            return_type: 5,
            dimension: 4,
            num_samples: 0,
            bind_point: 0,
            bind_count: 1,
            flags: 0,
            space: 0,
            id: 0,
        };
        assert_eq!(listed.to_string().len(), length + 33);
        assert_eq!(spelled(&Query::ListBinding(buffers, words), 70_000).number, number);
    }
}

/// The Rust gives the spelling in it.
#[test]
fn declaration_line() {
    let spelling = hlsl_type_name(&leaf(0, 3, "")).expect("the Rust spells it");
    let (buffers, variable) = with_name([0; 13], 0, b"k");
    let query = Query::Declaration(buffers, node([0, 3, 1, 1, 0, 0]), variable);
    assert_eq!(spelled(&query, 8).text, format!("{spelling} k;").into_bytes());
}

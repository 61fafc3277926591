//! The worked examples of document 01, each with its number.

use super::chains::{chain, End};
use super::fixed::{plain, put, Fixed};
use super::layout::Field;
use super::plan::{rd11, Plan, RD11};

/// Zero bytes but the words given as place and value.
fn words(length: usize, words: &[(usize, u32)]) -> Vec<u8> {
    let mut bytes = vec![0; length];
    for &(at, word) in words {
        put(&mut bytes, at, word);
    }
    bytes
}

/// One example for each refusal number of the reader, in the words of document 01's table.
pub fn refusals() -> Vec<Fixed> {
    let major_4 = (16, 0x400);
    let one_binding = |word: (usize, u32)| words(60, &[major_4, (8, 1), (12, 28), word]);
    let mut v = case_v();
    put(&mut v, 64 + 20, 109);
    let mut own = plain(&struct_of_one());
    let place = own.get(Field::TypeOffset, 0);
    own = own.set(Field::MemberType, 0, place);
    vec![
        Fixed::new("27 zero bytes", vec![0; 27], 1),
        Fixed::new("65,537 zero bytes", vec![0; 65_537], 2),
        Fixed::new("28 zero bytes", vec![0; 28], 3),
        Fixed::new("28 bytes, major 4, creator offset 28", words(28, &[major_4, (24, 28)]), 4),
        Fixed::new("28 zero bytes but major 5", words(28, &[(16, 0x500)]), 5),
        Fixed::new("60 zero bytes but major 5", words(60, &[(16, 0x500)]), 6),
        Fixed::new("28 bytes, major 4, one binding at offset 0", words(28, &[major_4, (8, 1)]), 7),
        Fixed::new("60 bytes, major 4, one binding at 28, input type 14", one_binding((32, 14)), 8),
        Fixed::new("as 8 but type 0, dimension 12", one_binding((40, 12)), 9),
        Fixed::new("as 8 but type 0, flags 0x20", one_binding((56, 0x20)), 10),
        Fixed::new("as 8 but type 0, name offset 60", one_binding((28, 60)), 11),
        Fixed::new("case V, default offset 109", v, 12),
        Fixed::new("a chain of 66 types", chain(4, 66, End::Leaf), 13),
        Fixed::new("a struct whose member has the struct's own offset", own.bytes, 14),
        Fixed::new("1,025 bindings", words(28 + 32 * 1_025, &[major_4, (8, 1_025), (12, 28)]), 15),
    ]
}

/// The edge chunks that read.
pub fn readings() -> Vec<Fixed> {
    let mut t = words(64, &[(8, 1), (12, 28), (16, 0x400), (24, 62), (28, 60)]);
    t[60..].copy_from_slice(b"t\0\0\xab");
    let input_type = |word| words(60, &[(16, 0x400), (8, 1), (12, 28), (32, word)]);
    vec![
        Fixed::new("case E", words(28, &[(16, 0x400)]), 0),
        Fixed::new("case E, canonical", case_e_canonical(), 0),
        Fixed::new("one binding t", t, 0),
        Fixed::new("case V", case_v(), 0),
        Fixed::new("case V with a default", case_v_with_default(), 0),
        Fixed::new("case V in major 5", case_v_in_major_5(), 0),
        Fixed::new("floats a and b, unequal defaults", floats_a_and_b(false), 0),
        Fixed::new("floats a and b, equal defaults", floats_a_and_b(true), 0),
        Fixed::new("input type 13", input_type(13), 0),
        Fixed::new("65 nested types", chain(4, 65, End::Leaf), 0),
        Fixed::new("float4[10]", float4_10(), 0),
    ]
}

fn struct_of_one() -> Plan {
    super::chains::plan(4, 1, End::Ring(0))
}

/// E's canonical form: 32 bytes, creator offset 28, ending 00 AB AB AB.
pub fn case_e_canonical() -> Vec<u8> {
    let mut bytes = words(32, &[(12, 28), (16, 0x400), (24, 28)]);
    bytes[28..].copy_from_slice(b"\0\xab\xab\xab");
    bytes
}

/// Buffer `$Globals`, float `k`: buffers at 28, variables at 64, type at 92, creator at 108.
pub fn case_v() -> Vec<u8> {
    let mut bytes = words(112, &[(0, 1), (4, 28), (12, 28), (16, 0x400), (24, 108)]);
    buffer(&mut bytes, 28, 52, 1, 64);
    variable(&mut bytes, 64, [88, 0, 4, 2, 92, 0]);
    bytes[88..92].copy_from_slice(b"k\0\xab\xab");
    float(&mut bytes, 92);
    bytes[108..].copy_from_slice(b"\0\xab\xab\xab");
    bytes
}

/// The default at 108, the creator behind it, 116 bytes.
pub fn case_v_with_default() -> Vec<u8> {
    let mut bytes = [&case_v()[..108], b"\0\0\x80\x3f\0\xab\xab\xab"].concat();
    put(&mut bytes, 24, 112);
    put(&mut bytes, 64 + 20, 108);
    bytes
}

/// Variables at 96, type at 140, 180 bytes.
pub fn case_v_in_major_5() -> Vec<u8> {
    let mut bytes = words(180, &[(0, 1), (4, 60), (12, 60), (16, 0x500), (24, 176)]);
    for (index, word) in rd11(RD11, 32, 0).into_iter().enumerate() {
        put(&mut bytes, 28 + 4 * index, word);
    }
    buffer(&mut bytes, 60, 84, 1, 96);
    variable(&mut bytes, 96, [136, 0, 4, 2, 140, 0]);
    put(&mut bytes, 96 + 24, 0xffff_ffff);
    put(&mut bytes, 96 + 32, 0xffff_ffff);
    bytes[136..140].copy_from_slice(b"k\0\xab\xab");
    float(&mut bytes, 140);
    bytes[176..].copy_from_slice(b"\0\xab\xab\xab");
    bytes
}

/// As V but `a` and `b` with defaults of 4 bytes: 148 bytes, or 140 where the defaults are equal.
pub fn floats_a_and_b(equal: bool) -> Vec<u8> {
    let length = if equal { 140 } else { 148 };
    let mut bytes = words(length, &[(0, 1), (4, 28), (12, 28), (16, 0x400), (24, if equal { 138 } else { 144 })]);
    buffer(&mut bytes, 28, 52, 2, 64);
    variable(&mut bytes, 64, [112, 0, 4, 2, 116, 132]);
    variable(&mut bytes, 88, [136, 4, 4, 2, 116, if equal { 132 } else { 140 }]);
    bytes[112..116].copy_from_slice(b"a\0\xab\xab");
    float(&mut bytes, 116);
    bytes[132..140].copy_from_slice(if equal { b"\0\0\x80\x3fb\0\0\xab" } else { b"\0\0\x80\x3fb\0\xab\xab" });
    if !equal {
        bytes[140..].copy_from_slice(b"\0\0\0\x40\0\xab\xab\xab");
    }
    bytes
}

/// As V but of type `float4[10]`: class 1, base 3, rows 1, columns 4, elements 10.
pub fn float4_10() -> Vec<u8> {
    let mut bytes = case_v();
    put(&mut bytes, 64 + 8, 160);
    put(&mut bytes, 92, 1 | 3 << 16);
    put(&mut bytes, 96, 1 | 4 << 16);
    put(&mut bytes, 100, 10);
    bytes
}

/// A record of a buffer of 16 bytes, and its name `$Globals` padded to a multiple of 4.
fn buffer(bytes: &mut [u8], at: usize, name: usize, count: u32, variables: u32) {
    for (index, word) in [name as u32, count, variables, 16, 0, 0].into_iter().enumerate() {
        put(bytes, at + 4 * index, word);
    }
    bytes[name..name + 12].copy_from_slice(b"$Globals\0\xab\xab\xab");
}

fn variable(bytes: &mut [u8], at: usize, words: [u32; 6]) {
    for (index, word) in words.into_iter().enumerate() {
        put(bytes, at + 4 * index, word);
    }
}

/// Class 0, variable type 3, one row, one column.
fn float(bytes: &mut [u8], at: usize) {
    put(bytes, at, 3 << 16);
    put(bytes, at + 4, 1 | 1 << 16);
}

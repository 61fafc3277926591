//! "The reader and the Rust".

use crate::port::read;
use oracle::generate::examples;
use oracle::generate::fixed::put;
use oracle::rdef::{parse_rdef, TypeDesc};

/// Zero bytes but major 4.
fn major_4(length: usize) -> Vec<u8> {
    let mut bytes = vec![0; length];
    bytes[17] = 4;
    bytes
}

#[test]
fn chunk_over_65_536_bytes() {
    let chunk = major_4(65_537);
    let reflection = parse_rdef(&chunk).expect("the Rust reads it");
    assert!(reflection.bindings.is_empty() && reflection.constant_buffers.is_empty());
    assert_eq!(read(&chunk), Err(2));
    assert!(read(&chunk[..65_536]).is_ok());
}

#[test]
fn more_records_than_the_room() {
    let buffers = |count: usize| {
        let mut chunk = major_4(28 + 24 * count);
        put(&mut chunk, 0, count as u32);
        put(&mut chunk, 4, 28);
        chunk
    };
    assert_eq!(parse_rdef(&buffers(65)).expect("the Rust reads it").constant_buffers.len(), 65);
    assert_eq!(read(&buffers(65)), Err(15));
    assert!(read(&buffers(64)).is_ok());
    // Document 01's own example.
    let mut bindings = major_4(28 + 32 * 1_025);
    put(&mut bindings, 8, 1_025);
    put(&mut bindings, 12, 28);
    assert_eq!(parse_rdef(&bindings).expect("the Rust reads it").bindings.len(), 1_025);
    assert_eq!(read(&bindings), Err(15));
}

/// One variable whose type has the next one twice, and so on. Each name is the empty text at 20.
fn doubling(levels: usize) -> Vec<u8> {
    let members = 76 + 16 * levels;
    let mut chunk = major_4(members + 24 * (levels - 1));
    for (at, word) in [(0, 1), (4, 28), (24, 20), (28, 20), (32, 1), (36, 52), (52, 20), (68, 76)] {
        put(&mut chunk, at, word);
    }
    for level in 0..levels - 1 {
        let array = members + 24 * level;
        put(&mut chunk, 76 + 16 * level + 8, 2 << 16);
        put(&mut chunk, 76 + 16 * level + 12, array as u32);
        for member in [array, array + 12] {
            put(&mut chunk, member, 20);
            put(&mut chunk, member + 4, 76 + 16 * (level as u32 + 1));
        }
    }
    chunk
}

fn nodes(node: &TypeDesc<'_>) -> usize {
    1 + node.members.iter().map(|member| nodes(&member.member_type)).sum::<usize>()
}

#[test]
fn a_walk_that_doubles_at_each_level() {
    assert_eq!(doubling(13).len(), 572);
    for (levels, count) in [(13, 8_191), (14, 16_383), (15, 32_767)] {
        let chunk = doubling(levels);
        let reflection = parse_rdef(&chunk).expect("the Rust reads it");
        assert_eq!(nodes(&reflection.constant_buffers[0].variables[0].var_type), count);
        assert_eq!(read(&chunk), Err(15));
    }
    assert!(read(&doubling(12)).is_ok());
    // The Rust is not asked.
    assert_eq!(read(&doubling(65)), Err(15));
}

#[test]
fn why_a_chunk_is_refused() {
    assert!(parse_rdef(&[0; 27]).is_none());
    assert_eq!(read(&[0; 27]), Err(1));
    for example in examples::refusals() {
        assert_eq!(read(&example.bytes), Err(example.number));
        assert_eq!(parse_rdef(&example.bytes).is_none(), example.number != 15, "{}", example.name);
    }
}

#[test]
fn a_name_in_the_answer() {
    let chunk = examples::case_v();
    let reflection = parse_rdef(&chunk).expect("the Rust reads it");
    assert_eq!(reflection.constant_buffers[0].name, "$Globals");
    assert_eq!(read(&chunk).expect("V reads").buffers[..3], [0, 52, 8]);
}

#[test]
fn what_major_4_has_not() {
    let chunk = examples::case_v();
    let reflection = parse_rdef(&chunk).expect("the Rust reads it");
    let variable = &reflection.constant_buffers[0].variables[0];
    let slots = [variable.texture_start, variable.texture_size, variable.sampler_start, variable.sampler_size];
    assert_eq!((reflection.rd11, slots, variable.var_type.sm5_extra), (None, [None; 4], None));
    let words = read(&chunk).expect("V reads");
    assert_eq!((&words.header[5..8], &words.variables[9..13]), (&[0; 3][..], &[0; 4][..]));
    assert_eq!(words.types[6..10], [0; 4]);
}

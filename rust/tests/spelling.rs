//! Spelling and listing held to rdef.rs: the linked functions to the last byte, and the interface on chunks that read.

mod common;

use common::{cases, seed};
use nontrefalcu::{hlsl_type_name, parse_hlsl_type, parse_rdef, raw, Refusal, TypeDesc};
use oracle::comparison::Comparison;
use oracle::generate::rng::Rng;
use oracle::generate::{fixed_chunks, Generator as Chunks};
use oracle::rdef;
use oracle::spelling::check::Checker;
use oracle::spelling::generate::Generator;
use oracle::spelling::port::Entries;
use oracle::spelling::Query;

const LINKED: Entries = Entries {
    type_name: |chunk, edits, node, out, length| raw::type_name(chunk, edits, node, out, length),
    declaration: |chunk, edits, node, variable, out, length| {
        raw::declaration(chunk, edits, node, variable, out, length)
    },
    parse_type: |text, numbers| raw::parse_type(text, numbers),
    list_binding: |chunk, edits, binding, out, length| raw::list_binding(chunk, edits, binding, out, length),
};

#[test]
fn every_byte_is_that_of_rdef_rs() {
    let mut checker = Checker::new(LINKED);
    let mut rng = Rng::new(seed(), u64::MAX);
    checker.compare_fixed(&mut rng);
    checker.compare_fresh(cases(), seed(), &mut rng);
    println!("{}", checker.report());
    assert_eq!(checker.tally.first, None);
}

#[test]
fn texts_are_read_as_rdef_rs_reads_them() {
    let generator = Generator::new(seed() + 1);
    for number in 0..cases() {
        let Query::ParseType(text) = generator.case(2, number).query else { panic!("kind 2 reads spellings") };
        if let Ok(text) = std::str::from_utf8(&text) {
            assert_eq!(parse_hlsl_type(text).ok(), rdef::parse_hlsl_type(text), "{text:?}");
        }
    }
    assert_eq!(parse_hlsl_type("float4[10]"), Ok((1, 3, 1, 4, 10)));
    assert_eq!(parse_hlsl_type("half4"), Err(Refusal { number: 18 }));
}

fn same_spellings(ours: &TypeDesc<'_>, theirs: &rdef::TypeDesc<'_>) {
    let spelled = hlsl_type_name(ours);
    assert_eq!(spelled.as_ref().ok(), rdef::hlsl_type_name(theirs).as_ref());
    assert!(matches!(spelled, Ok(_) | Err(Refusal { number: 18 })));
    for (ours, theirs) in ours.members().zip(&theirs.members) {
        same_spellings(&ours.member_type, &theirs.member_type);
    }
}

fn hold(chunk: &[u8]) {
    let Ok(def) = parse_rdef(chunk) else { return };
    let by_rust = rdef::parse_rdef(chunk).expect("by rdef.rs too");
    for (ours, theirs) in def.bindings().zip(&by_rust.bindings) {
        let line = theirs.to_string();
        assert_eq!(ours.to_string(), line);
        assert_eq!(ours.listed().ok(), (line.len() <= 65_536).then_some(line));
    }
    for (ours, theirs) in def.constant_buffers().zip(&by_rust.constant_buffers) {
        for (ours, theirs) in ours.variables().zip(&theirs.variables) {
            same_spellings(&ours.var_type, &theirs.var_type);
            let line = rdef::hlsl_type_name(&theirs.var_type).map(|spelling| format!("{spelling} {};", theirs.name));
            assert_eq!(ours.declaration().ok(), line.filter(|line| line.len() <= 65_536));
        }
    }
}

#[test]
fn chunks_are_listed_and_spelled_as_by_rdef_rs() {
    for fixed in fixed_chunks() {
        hold(&fixed.bytes);
    }
    let generator = Chunks::new(seed() + 2);
    for number in 0..cases() {
        hold(&generator.chunk(number).1);
    }
}

#[test]
fn a_binding_is_printed_however_long_its_name() {
    // Major 4, one binding at 28, its name at 60.
    for length in [65_460, 65_475, 65_500] {
        let mut chunk = vec![b'n'; 61 + length];
        chunk[..60].fill(0);
        chunk[60 + length] = 0;
        chunk[8] = 1;
        chunk[12] = 28;
        chunk[17] = 4;
        chunk[24] = 59;
        chunk[28] = 60;
        if chunk.len() <= 65_536 {
            hold(&chunk);
        }
    }
}

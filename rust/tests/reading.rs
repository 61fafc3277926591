//! Reading held to rdef.rs: the linked function to the last word of every table, and the interface field by field.

mod common;

use common::{assert_same, cases, seed};
use nontrefalcu::{parse_rdef, raw};
use oracle::check::{Checker, Lending};
use oracle::comparison::Comparison;
use oracle::generate::rng::Rng;
use oracle::generate::{fixed_chunks, Generator, Kind};
use oracle::tables::Rooms;
use oracle::{model, rdef};

/// The linked function as the comparison calls it.
fn read(chunk: &[u8], header: &mut [u32], tables: [&mut [u32]; 4]) -> u32 {
    let [bindings, buffers, variables, types] = tables;
    raw::parse_rdef(chunk, header, bindings, buffers, variables, types)
}

#[test]
fn every_word_is_that_of_rdef_rs() {
    let mut checker = Checker::new(read);
    let mut rng = Rng::new(seed(), u64::MAX);
    checker.compare_fixed(&mut rng);
    let generator = Generator::new(seed());
    for number in 0..cases() {
        let (kind, chunk) = generator.chunk(number);
        let often = matches!(kind, Kind::Branching | Kind::Crowded) && rng.one_in(2);
        let lending = match rng.below(if often { 5 } else { 200 }) {
            0..=3 => Lending::Full,
            4 => Lending::Over,
            5..=29 => Lending::Short,
            30..=44 => Lending::Small,
            _ => Lending::Enough,
        };
        checker.compare(&format!("chunk {number}, {kind:?}, {lending:?}"), &chunk, lending, &mut rng);
    }
    println!("{}", checker.report());
    assert_eq!(checker.tally.first, None);
}

/// The interface's answer for a chunk: the number of document 01, or the fields of rdef.rs.
fn hold(chunk: &[u8]) {
    let ours = parse_rdef(chunk);
    match model::read(chunk, &Rooms::FULL) {
        Ok(_) => assert_same(&ours.expect("a chunk that reads"), &rdef::parse_rdef(chunk).expect("by rdef.rs too")),
        Err(number) => assert_eq!(ours.err().map(|refusal| refusal.number), Some(number)),
    }
}

#[test]
fn every_field_is_that_of_rdef_rs() {
    for fixed in fixed_chunks() {
        hold(&fixed.bytes);
    }
    let generator = Generator::new(seed() + 1);
    for number in 0..cases() {
        hold(&generator.chunk(number).1);
    }
}

#[test]
fn an_owned_reflection_outlives_its_chunk() {
    let chunk = include_bytes!("../../samples/nested.5.rdef").to_vec();
    let owned = parse_rdef(&chunk).expect("a sample").into_owned();
    let by_rust = rdef::parse_rdef(&chunk).expect("a sample");
    assert_same(&owned, &by_rust);
    assert_eq!(owned.chunk(), chunk);
}

#[test]
fn it_is_debugged() {
    let def = parse_rdef(include_bytes!("../../samples/surtitle.5.rdef")).expect("a sample");
    assert!(format!("{def:?}").contains("Line"));
}

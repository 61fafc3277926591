//! The canonical form and the payload held to rdef.rs: the linked writer to the last byte, and the interface on chunks that read.

mod common;

use common::{assert_same, cases, seed};
use nontrefalcu::{parse_rdef, raw, Refusal};
use oracle::comparison::Comparison;
use oracle::generate::rng::Rng;
use oracle::generate::{fixed_chunks, Generator as Chunks};
use oracle::writing::check::Checker;
use oracle::writing::generate::fixed;
use oracle::writing::port::Lent;
use oracle::writing::stored;
use oracle::{rdef, ChunkWriter};
use std::borrow::Cow;

fn write(lent: &Lent<'_>, scratch: &mut [u32], out: &mut [u8], length: &mut [u32]) -> u32 {
    let [bindings, buffers, variables, types] = lent.tables;
    raw::write_canonical(lent.chunk, lent.edits, lent.header, bindings, buffers, variables, types, scratch, out, length)
}

#[test]
fn every_byte_is_that_of_rdef_rs() {
    let mut checker = Checker::new(write);
    let mut rng = Rng::new(seed(), u64::MAX);
    for (index, case) in stored::cases().iter().enumerate() {
        checker.compare(&format!("stored case {index}"), case, &mut rng);
    }
    for (name, held) in [fixed::chunks(), fixed::boundary(), fixed::faulty(), fixed::limits()].concat() {
        for case in fixed::with_rooms(&held) {
            checker.compare(&name, &case, &mut rng);
        }
    }
    checker.compare_fresh(cases(), seed(), &mut rng);
    println!("{}", checker.report());
    assert_eq!(checker.tally.first, None);
}

/// A chunk that reads: its canonical form is that of rdef.rs and reads as the same, and its payload is itself.
fn hold(chunk: &[u8]) {
    let Ok(def) = parse_rdef(chunk) else { return };
    let by_rust = rdef::ResourceDef { original_data: None, ..rdef::parse_rdef(chunk).expect("by rdef.rs too") };
    let canonical = by_rust.write_payload();
    if canonical.len() > 65_536 {
        assert_eq!(def.canonical(), Err(Refusal { number: 17 }));
    } else {
        assert_eq!(def.canonical().as_deref(), Ok(&*canonical));
        let again = parse_rdef(&canonical).expect("what was written");
        assert_same(&again, &by_rust);
        assert_eq!(again.canonical().as_deref(), Ok(&*canonical));
    }
    assert!(
        matches!(def.payload(), Ok(Cow::Borrowed(payload)) if payload.as_ptr() == chunk.as_ptr() && payload == chunk)
    );
}

#[test]
fn chunks_are_written_as_by_rdef_rs() {
    for fixed in fixed_chunks() {
        hold(&fixed.bytes);
    }
    let generator = Chunks::new(seed() + 3);
    for number in 0..cases() {
        hold(&generator.chunk(number).1);
    }
}

//! The canonical form, written by rdef.rs (`write_payload` with no original bytes) and by the library; and the payload of what was not edited.

use crate::clock::times;
use crate::reading::{full, read, Tables};
use nontrefalcu::layout::{LONGEST_OUTPUT, SCRATCH_WORDS, WIDTHS};
use nontrefalcu::raw;
use oracle::rdef::{parse_only, parse_rdef};
use oracle::ChunkWriter;
use std::hint::black_box;

pub fn table(inputs: &[(String, Vec<u8>)], grown: &[(String, Vec<u8>)]) {
    println!("Writing the canonical form of what a chunk reads as");
    println!("  (a) rdef.rs, write_payload with no original bytes   (b) the library");
    println!("  (B) the same, scratch and output cleared by the caller first   (c) the crate's canonical");
    println!("  (p) rdef.rs, write_payload of what was not edited   (q) the crate's payload of it");
    println!(
        "{:<21}{:>8}{:>9}{:>9}{:>9}{:>9}{:>9}{:>9}{:>7}{:>7}{:>7}{:>7}",
        "chunk", "written", "(a)", "(b)", "(B)", "(c)", "(p)", "(q)", "a/b", "a/B", "a/c", "p/q"
    );
    for (name, chunk) in inputs.iter().chain(grown) {
        line(name, chunk);
    }
    println!();
}

/// What the library is lent for one reflection.
pub struct Lent<'a> {
    pub chunk: &'a [u8],
    pub edits: &'a [u8],
    pub header: [u32; 12],
    pub tables: Tables,
    pub scratch: Vec<u32>,
    pub out: Vec<u8>,
}

impl<'a> Lent<'a> {
    pub fn new(chunk: &'a [u8], edits: &'a [u8], header: [u32; 12], tables: Tables) -> Lent<'a> {
        Lent { chunk, edits, header, tables, scratch: vec![1; SCRATCH_WORDS], out: vec![1; LONGEST_OUTPUT] }
    }

    pub fn read(chunk: &'a [u8]) -> Lent<'a> {
        let (mut header, mut tables) = ([0; 12], full());
        assert_eq!(read(chunk, &mut header, &mut tables), 0);
        for (index, table) in tables.iter_mut().enumerate() {
            table.truncate(header[8 + index] as usize * WIDTHS[index]);
        }
        Lent::new(chunk, &[], header, tables)
    }

    pub fn write(&mut self) -> (u32, u32) {
        let [bindings, buffers, variables, types] = &self.tables;
        let (header, scratch, out, mut length) = (&self.header, &mut self.scratch, &mut self.out, [0]);
        let (chunk, edits) = (black_box(self.chunk), black_box(self.edits));
        let number =
            raw::write_canonical(chunk, edits, header, bindings, buffers, variables, types, scratch, out, &mut length);
        (number, length[0])
    }
}

fn line(name: &str, chunk: &[u8]) {
    let mut by_rust = parse_only(chunk).expect("rdef.rs reads the chunk");
    by_rust.original_data = None;
    let expected = by_rust.write_payload();
    if expected.len() > LONGEST_OUTPUT {
        println!("{name:<21}{:>8} too long", expected.len());
        return;
    }
    let mut lent = Lent::read(chunk);
    let (number, length) = lent.write();
    assert_eq!((number, &lent.out[..length as usize]), (0, &*expected));
    let mut cleared = Lent::read(chunk);
    let def = nontrefalcu::parse_rdef(chunk).expect("a chunk that reads");
    let unedited = parse_rdef(chunk).expect("rdef.rs reads the chunk");
    assert!(unedited.write_payload() == chunk && def.payload().is_ok_and(|payload| payload == chunk));
    let [a, b, b_cleared, c, p, q] = times([
        &mut || drop(black_box(by_rust.write_payload())),
        &mut || _ = black_box(lent.write()),
        &mut || {
            cleared.scratch.fill(0);
            cleared.out.fill(0);
            black_box(&mut cleared);
            black_box(cleared.write());
        },
        &mut || drop(black_box(def.canonical())),
        &mut || drop(black_box(unedited.write_payload())),
        &mut || drop(black_box(def.payload())),
    ]);
    print!("{name:<21}{length:>8}{a:>9.0}{b:>9.0}{b_cleared:>9.0}{c:>9.0}{p:>9.0}{q:>9.0}");
    println!("{:>7.2}{:>7.2}{:>7.2}{:>7.2}", a / b, a / b_cleared, a / c, p / q);
}

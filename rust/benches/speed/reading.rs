//! Reading: parse_rdef of rdef.rs, which writes the canonical form inside itself, and its parsing part alone, beside the library's.

use crate::clock::times;
use nontrefalcu::layout::{LIMITS, WIDTHS};
use nontrefalcu::raw;
use oracle::rdef::{parse_only, parse_rdef};
use oracle::tables::Answer;
use oracle::words;
use std::hint::black_box;

pub type Tables = [Vec<u32>; 4];

/// Tables of the whole room, and of as many records as the chunk needs, all holding something.
pub fn full() -> Tables {
    std::array::from_fn(|table| vec![1; LIMITS[table] * WIDTHS[table]])
}

pub fn needed(answer: &Answer) -> Tables {
    answer.tables().map(|words| vec![1; words.len()])
}

pub fn read(chunk: &[u8], header: &mut [u32], tables: &mut Tables) -> u32 {
    let [bindings, buffers, variables, types] = tables;
    raw::parse_rdef(chunk, header, bindings, buffers, variables, types)
}

fn call(chunk: &[u8], tables: &mut Tables) {
    let mut header = [0; 12];
    let number = read(black_box(chunk), &mut header, tables);
    black_box((number, header));
}

/// What is timed must be right.
fn assert_read(chunk: &[u8], answer: &Answer, tables: &mut Tables) {
    let mut header = [1; 12];
    let number = read(chunk, &mut header, tables);
    assert_eq!((number, header), (0, answer.header));
    for (table, words) in tables.iter().zip(answer.tables()) {
        assert_eq!(table[..words.len()], *words);
        assert!(table[words.len()..].iter().all(|&word| word == 0));
    }
}

pub fn table(inputs: &[(String, Vec<u8>)], grown: &[(String, Vec<u8>)]) {
    println!("Reading");
    println!("  (a) rdef.rs, parse_rdef         (b) rdef.rs, its parsing part alone");
    println!("  (c) the library, tables of the whole room   (C) the same, cleared by the caller first");
    println!("  (d) the library, tables of the needed size  (D) the same, cleared by the caller first");
    println!("  (e) the crate's parse_rdef, which makes its tables");
    println!(
        "{:<21}{:>6}{:>9}{:>8}{:>8}{:>8}{:>8}{:>8}{:>8}{:>7}{:>7}{:>7}{:>7}{:>7}{:>7}",
        "chunk", "bytes", "(a)", "(b)", "(c)", "(C)", "(d)", "(D)", "(e)", "a/c", "a/d", "a/e", "b/c", "b/d", "b/e"
    );
    for (name, chunk) in inputs.iter().chain(grown) {
        line(name, chunk);
    }
    println!();
}

fn line(name: &str, chunk: &[u8]) {
    let answer = words::read(chunk).expect("rdef.rs reads the chunk");
    let (mut full_tables, mut needed_tables) = (full(), needed(&answer));
    assert_read(chunk, &answer, &mut full_tables);
    assert_read(chunk, &answer, &mut needed_tables);
    let (mut cleared_full, mut cleared_needed) = (full_tables.clone(), needed_tables.clone());
    let cleared = |tables: &mut Tables| {
        tables.iter_mut().for_each(|table| table.fill(0));
        black_box(&mut *tables);
        call(chunk, tables);
    };
    let [a, b, c, c_cleared, d, d_cleared, e] = times([
        &mut || drop(black_box(parse_rdef(black_box(chunk)))),
        &mut || drop(black_box(parse_only(black_box(chunk)))),
        &mut || call(chunk, &mut full_tables),
        &mut || cleared(&mut cleared_full),
        &mut || call(chunk, &mut needed_tables),
        &mut || cleared(&mut cleared_needed),
        &mut || drop(black_box(nontrefalcu::parse_rdef(black_box(chunk)))),
    ]);
    print!("{name:<21}{:>6}{a:>9.0}{b:>8.0}{c:>8.0}{c_cleared:>8.0}{d:>8.0}{d_cleared:>8.0}{e:>8.0}", chunk.len());
    println!("{:>7.2}{:>7.2}{:>7.2}{:>7.2}{:>7.2}{:>7.2}", a / c, a / d, a / e, b / c, b / d, b / e);
}

//! The inputs within the limits that take longest, one call each.

use crate::clock::once;
use crate::reading::{full, read};
use crate::tables::{self, Numbered};
use crate::writing::Lent;
use nontrefalcu::raw;
use oracle::generate::timed::{alike_types, longest_names};
use oracle::rdef::{parse_only, parse_rdef};
use oracle::writing::Held;
use oracle::ChunkWriter;
use std::borrow::Cow;
use std::hint::black_box;

pub fn table() {
    println!("Worst cases, milliseconds for one call (rdef.rs beside it where it has the like)");
    println!("{:<76}{:>10}{:>10}", "entry and input", "library", "rdef.rs");
    for (what, character) in [("ASCII", "n"), ("2 bytes each", "ä"), ("3 bytes each", "字"), ("4 bytes each", "𝄞")]
    {
        of_chunk(what, &longest_names(character));
    }
    let text = [b"float".as_slice(), &[b'0'; 65_530], b"4"].concat();
    let mut numbers = [0; 5];
    let parsed = once(|| _ = black_box(raw::parse_type(black_box(&text), &mut numbers)));
    line("read a spelling of 65,536 bytes", parsed, None);
    canonical("canonical form, 8,257 names of 32,000 bytes, 256 types alike", &alike_types("n"));
    of_tables("equal", &tables::full_of_names(tables::equal(), Numbered::All));
    of_tables("different", &tables::full_of_names(tables::different(), Numbered::All));
    // Every type is compared with all before it, and every name with all before it in its bucket.
    of_tables("equal, types alike", &tables::full_of_names(tables::equal(), Numbered::Members));
    of_tables("different, few buckets", &tables::full_of_names(tables::different_in_few_buckets(), Numbered::All));
}

fn of_chunk(what: &str, chunk: &[u8]) {
    let (mut header, mut tables) = ([0; 12], full());
    let mut number = 1;
    let ours = once(|| number = read(black_box(chunk), &mut header, &mut tables));
    assert_eq!(number, 0);
    let theirs = once(|| drop(black_box(parse_only(black_box(chunk)))));
    line(&format!("read, 8,257 names of 62,000 bytes, {what}"), ours, Some(theirs));
    canonical(&format!("canonical form of it, {what}"), chunk);
    payloads(what, chunk);

    let lent = Lent::read(chunk);
    let (mut out, mut length) = (vec![0; 65_536], [0]);
    let (node, variable) = (&lent.tables[3][..17], &lent.tables[2][..13]);
    let spelled = once(|| _ = black_box(raw::type_name(chunk, &[], node, &mut out, &mut length)));
    line(&format!("spell a type of such a name, {what}"), spelled, None);
    let declared = once(|| _ = black_box(raw::declaration(chunk, &[], node, variable, &mut out, &mut length)));
    line(&format!("declare such a variable of such a type, {what}"), declared, None);
    let mut binding = [0, 0, 0, 2, 5, 4, 0, 0, 1, 12, 0, 0];
    binding[..3].copy_from_slice(&variable[..3]);
    let listed = once(|| _ = black_box(raw::list_binding(chunk, &[], &binding, &mut out, &mut length)));
    line(&format!("list a binding of such a name, {what}"), listed, None);
}

/// The canonical form of what a chunk reads as.
fn canonical(what: &str, chunk: &[u8]) {
    let (mut lent, mut number) = (Lent::read(chunk), 0);
    let ours = once(|| number = lent.write().0);
    let mut by_rust = parse_only(chunk).expect("rdef.rs reads the chunk");
    by_rust.original_data = None;
    let theirs = once(|| drop(black_box(by_rust.write_payload())));
    line(&format!("{what}{}", refused(number)), ours, Some(theirs));
}

/// The payload, unedited and with one name edited: that of the last member, which is compared last.
fn payloads(what: &str, chunk: &[u8]) {
    let mut def = nontrefalcu::parse_rdef(chunk).expect("a chunk that reads");
    assert!(matches!(def.payload(), Ok(Cow::Borrowed(_))));
    let ours = once(|| drop(black_box(def.payload())));
    let by_rust = parse_rdef(chunk).expect("rdef.rs reads the chunk");
    let theirs = once(|| drop(black_box(by_rust.write_payload())));
    line(&format!("payload of it, unedited, {what}"), ours, Some(theirs));

    let mut renamed = Ok(());
    let ours = once(|| renamed = black_box(&mut def).set_member_name(4_095, "edited"));
    renamed.expect("the last node is a member's type");
    line(&format!("rename a member of it, {what}"), ours, None);
    let number = match def.payload() {
        Ok(Cow::Borrowed(_)) => panic!("the chunk itself, though a name is edited"),
        Ok(Cow::Owned(_)) => 0,
        Err(refusal) => refusal.number,
    };
    let ours = once(|| drop(black_box(def.payload())));
    line(&format!("payload of it, one name edited, {what}{}", refused(number)), ours, None);
}

/// The canonical form of tables that are made by hand.
fn of_tables(what: &str, held: &Held) {
    let tables = held.words.tables().map(<[u32]>::to_vec);
    let mut lent = Lent::new(&held.chunk, &held.edits, held.words.header, tables);
    let mut number = 0;
    let ours = once(|| number = lent.write().0);
    line(&format!("canonical form of tables, 9,281 names, {what}{}", refused(number)), ours, None);
}

fn refused(number: u32) -> String {
    if number == 0 {
        String::new()
    } else {
        format!(", refused {number}")
    }
}

fn line(what: &str, ours: f64, theirs: Option<f64>) {
    let theirs = theirs.map_or(String::new(), |time| format!("{time:>10.2}"));
    println!("{what:<76}{ours:>10.2}{theirs}");
}

//! Faults: each makes a readable reflection break one part of document 01's list, where it can be put at all.

use super::edits::append;
use super::fields::{Field, What};
use crate::generate::plan::{RD11, SM5_1};
use crate::generate::rng::Rng;
use crate::tables::{LIMITS, TYPE_WORDS, WIDTHS};
use crate::utf8::well_formed;
use crate::writing::readable::Clause;
use crate::writing::{Held, LONGEST};

/// Puts the fault, or says that the reflection has nothing that it could be put into.
pub type Fault = fn(&mut Held, &mut Rng) -> Option<()>;

/// Each with the part of the list that the model must name.
pub const FAULTS: [(&str, Clause, Fault); 22] = [
    ("a buffer too long", Clause::Buffers, long_buffer),
    ("a place outside", Clause::Places, place),
    ("a wrong source", Clause::Places, source),
    ("a place that wraps", Clause::Places, wrapping),
    ("a count too great for its table", Clause::Counts, great_count),
    ("a count one off", Clause::Counts, other_count),
    ("a buffer's count", Clause::Counts, variable_count),
    ("a member count", Clause::Counts, member_count),
    ("another major", Clause::Major, major),
    ("an RD11 word", Clause::Rd11, rd11),
    ("RD11 words and major 4", Clause::Rd11, stray_rd11),
    ("RD11 words missing", Clause::Rd11, missing_rd11),
    ("a code", Clause::Codes, code),
    ("space or id with stride 32", Clause::Space, space),
    ("a NUL in a name", Clause::Names, nul),
    ("a name that is not UTF-8", Clause::Names, ill_formed),
    ("a field of 16 bits", Clause::Halves, half),
    ("a default of another size", Clause::Default, default_size),
    ("a size that its default has not", Clause::Default, size),
    ("extra words in major 4", Clause::Major4, extra),
    ("a type name in major 4", Clause::Major4, type_name),
    ("slots in major 4", Clause::Major4, slots),
];

/// A random record of a table, by its first word.
fn record(held: &Held, table: usize, rng: &mut Rng) -> Option<usize> {
    (held.count(table) > 0).then(|| rng.below(held.count(table)) * WIDTHS[table])
}

fn when(holds: bool) -> Option<()> {
    holds.then_some(())
}

fn long_buffer(held: &mut Held, rng: &mut Rng) -> Option<()> {
    let buffer = if rng.one_in(2) { &mut held.chunk } else { &mut held.edits };
    buffer.resize(LONGEST + rng.pick(&[1, 1, 2, 300]), rng.pick(&[0, b'a']));
    Some(())
}

fn place(held: &mut Held, rng: &mut Rng) -> Option<()> {
    let field = rng.pick(&held.fields());
    let source = rng.below(2);
    let length = [held.chunk.len(), held.edits.len()][source] as u32;
    // A default's length goes with its size, and a type of major 4 has no name: only empty ones break this alone.
    let empty = field.what == What::Default || field.what == What::Type && !held.is_major_5();
    let most = if empty { 0 } else { length };
    let text = rng.below(most as usize + 1) as u32;
    let past = rng.pick(&[1, 1, 2, 100, 0x7fff_0000]);
    held.set(field, [source as u32, length - text + past, text]);
    Some(())
}

fn source(held: &mut Held, rng: &mut Rng) -> Option<()> {
    let field = rng.pick(&held.fields());
    let word = rng.pick(&[2, 2, 3, 0x100, 0x0001_0000, 0x8000_0000, 0xffff_ffff]);
    held.table_mut(field.table)[field.at] = word;
    Some(())
}

/// Place and length whose sum is small again in 32 bits.
fn wrapping(held: &mut Held, rng: &mut Rng) -> Option<()> {
    let length = rng.pick(&[1, 2, 5, 0xffff_ffff, 0x8000_0000]);
    let place = rng.below(length.min(3) as usize) as u32;
    held.set(rng.pick(&nameable(held)), [rng.below(2) as u32, place.wrapping_sub(length), length]);
    Some(())
}

fn great_count(held: &mut Held, rng: &mut Rng) -> Option<()> {
    let table = rng.below(4);
    let held_records = held.words.tables()[table].len() / WIDTHS[table];
    held.words.header[8 + table] = rng.pick(&[held_records as u32 + 1, 0xffff_ffff, 0x8000_0000]);
    Some(())
}

/// The records are there, but are not what the other tables count.
fn other_count(held: &mut Held, rng: &mut Rng) -> Option<()> {
    let table = rng.between(2, 3);
    let width = WIDTHS[table];
    if rng.one_in(2) && held.count(table) > 0 {
        held.words.header[8 + table] -= 1;
        return Some(());
    }
    when(held.count(table) < LIMITS[table])?;
    let (end, count) = (held.count(table) * width, held.count(table));
    let table_words = held.table_vec(table);
    if table_words.len() < end + width {
        table_words.resize(end + width, 0);
    }
    // A variable without a name and a type without members: nothing else is wrong.
    table_words[end..end + width].fill(0);
    held.words.header[8 + table] = count as u32 + 1;
    Some(())
}

fn variable_count(held: &mut Held, rng: &mut Rng) -> Option<()> {
    let first = record(held, 1, rng)?;
    let count = held.words.buffers[first + 3];
    let other = rng.pick(&[count.wrapping_sub(1), count + 1, 0xffff_ffff, count | 0x8000_0000]);
    held.words.buffers[first + 3] = other;
    Some(())
}

fn member_count(held: &mut Held, rng: &mut Rng) -> Option<()> {
    // The last node has no members: what it counts is missing.
    let last = held.count(3).checked_sub(1)? * TYPE_WORDS;
    let count = held.words.types[last + 5];
    held.words.types[last + 5] = rng.pick(&[count + 1, 0xffff, 0x0001_0000, 0xffff_ffff]);
    Some(())
}

fn major(held: &mut Held, rng: &mut Rng) -> Option<()> {
    let other = rng.pick(&[0, 1, 2, 3, 6, 7, 0x14, 0x15, 255]);
    held.words.header[0] = held.words.header[0] & 0xffff_00ff | other << 8;
    Some(())
}

fn rd11(held: &mut Held, rng: &mut Rng) -> Option<()> {
    when(held.is_major_5())?;
    if rng.one_in(2) {
        held.words.header[5] = rng.pick(&[0, RD11 ^ 1, SM5_1 ^ 0x8000_0000, 60]);
    } else {
        held.words.header[6] = rng.pick(&[0, 24, 31, 33, 36, 41, 0x120, 0xffff_ffff]);
    }
    Some(())
}

fn stray_rd11(held: &mut Held, rng: &mut Rng) -> Option<()> {
    when(!held.is_major_5())?;
    match rng.below(4) {
        0 => held.words.header[5] = RD11,
        1 => held.words.header[6] = rng.pick(&[32, 1]),
        2 => held.words.header[7] = rng.pick(&[1, 0x8000_0000]),
        _ => held.words.header[5..8].copy_from_slice(&[SM5_1, 32, 0]),
    }
    Some(())
}

fn missing_rd11(held: &mut Held, _: &mut Rng) -> Option<()> {
    when(held.is_major_5())?;
    held.words.header[5..8].fill(0);
    Some(())
}

fn code(held: &mut Held, rng: &mut Rng) -> Option<()> {
    let first = record(held, 0, rng)?;
    let (field, word) = match rng.below(3) {
        0 => (3, rng.pick(&[14, 15, 0x100, 0xffff_ffff])),
        1 => (5, rng.pick(&[12, 13, 0x100, 0xffff_ffff])),
        _ => (9, rng.pick(&[0x20, 0x3f, 0x100, 0x8000_0000])),
    };
    held.words.bindings[first + field] = word;
    Some(())
}

fn space(held: &mut Held, rng: &mut Rng) -> Option<()> {
    when(held.words.header[6] != 40)?;
    let first = record(held, 0, rng)?;
    held.words.bindings[first + rng.between(10, 11)] = rng.pick(&[1, 0x8000_0000]);
    Some(())
}

/// The names that may be other than empty: in major 4 all but those of types.
fn nameable(held: &Held) -> Vec<Field> {
    let mut fields = held.names();
    if !held.is_major_5() {
        fields.retain(|field| field.what != What::Type);
    }
    fields
}

fn bad_name(held: &mut Held, bytes: &[u8], rng: &mut Rng) -> Option<()> {
    let fields = nameable(held);
    let text = append(held, bytes, rng);
    held.set(rng.pick(&fields), text);
    Some(())
}

fn nul(held: &mut Held, rng: &mut Rng) -> Option<()> {
    let text = rng.pick::<&[u8]>(&[b"\0", b"a\0", b"\0b", b"a\0b", b"fade\0\0"]);
    bad_name(held, text, rng)
}

fn ill_formed(held: &mut Held, rng: &mut Rng) -> Option<()> {
    let edges = crate::generate::texts::edges();
    let edge = &edges[rng.below(edges.len())];
    let bytes = if well_formed(edge) { [edge, &b"\x80"[..]].concat() } else { edge.clone() };
    bad_name(held, &bytes, rng)
}

fn half(held: &mut Held, rng: &mut Rng) -> Option<()> {
    let first = record(held, 3, rng)?;
    held.words.types[first + rng.below(5)] = rng.pick(&[65_536, 65_537, 0x8000_0000, 0xffff_ffff]);
    Some(())
}

fn default_size(held: &mut Held, rng: &mut Rng) -> Option<()> {
    let first = record(held, 2, rng)?;
    let size = held.words.variables[first + 4];
    when(size < 1_000)?;
    let length = if size > 1 && rng.one_in(2) { size - 1 } else { size + rng.pick(&[1, 1, 4]) };
    let text = append(held, &vec![7; length as usize], rng);
    held.words.variables[first + 6..first + 9].copy_from_slice(&text);
    Some(())
}

fn size(held: &mut Held, rng: &mut Rng) -> Option<()> {
    let first = record(held, 2, rng)?;
    when(held.words.variables[first + 8] > 0)?;
    held.words.variables[first + 4] ^= rng.pick(&[1, 0x100, 0x0001_0000, 0x8000_0000]);
    Some(())
}

fn extra(held: &mut Held, rng: &mut Rng) -> Option<()> {
    when(!held.is_major_5())?;
    let first = record(held, 3, rng)?;
    held.words.types[first + rng.between(6, 9)] = rng.pick(&[1, 0x8000_0000]);
    Some(())
}

fn type_name(held: &mut Held, rng: &mut Rng) -> Option<()> {
    when(!held.is_major_5())?;
    let first = record(held, 3, rng)?;
    let text = append(held, b"S", rng);
    held.words.types[first + 10..first + 13].copy_from_slice(&text);
    Some(())
}

fn slots(held: &mut Held, rng: &mut Rng) -> Option<()> {
    when(!held.is_major_5())?;
    let first = record(held, 2, rng)?;
    held.words.variables[first + rng.between(9, 12)] = rng.pick(&[1, 0xffff_ffff]);
    Some(())
}

//! Records to spell, declare and list.

use super::names::{fill, misplace, name, put};
use crate::generate::rng::Rng;
use crate::spelling::model::BASES;
use crate::spelling::{BindingWords, Buffers, Query, TypeWords, VariableWords};

pub fn type_name(edges: &[Vec<u8>], rng: &mut Rng) -> Query {
    let mut buffers = Buffers::default();
    let mut node = node(&mut buffers, edges, rng);
    finish(&mut buffers, rng);
    if rng.one_in(6) {
        misplace(&mut node[10..13], &buffers, rng);
    }
    Query::TypeName(buffers, node)
}

pub fn declaration(edges: &[Vec<u8>], rng: &mut Rng) -> Query {
    let mut buffers = Buffers::default();
    let mut node = node(&mut buffers, edges, rng);
    // What is not the name is not looked at.
    let mut variable: VariableWords = std::array::from_fn(|_| unread(rng));
    let name = name(edges, rng);
    variable[..3].copy_from_slice(&put(&mut buffers, &name, rng));
    finish(&mut buffers, rng);
    if rng.one_in(10) {
        misplace(&mut node[10..13], &buffers, rng);
    }
    if rng.one_in(8) {
        misplace(&mut variable[..3], &buffers, rng);
    }
    Query::Declaration(buffers, node, variable)
}

pub fn list_binding(edges: &[Vec<u8>], rng: &mut Rng) -> Query {
    let mut buffers = Buffers::default();
    let mut binding: BindingWords = std::array::from_fn(|_| unread(rng));
    let name = name(edges, rng);
    binding[..3].copy_from_slice(&put(&mut buffers, &name, rng));
    finish(&mut buffers, rng);
    binding[3] = code(15, rng);
    binding[5] = code(13, rng);
    binding[7] = of_digits(rng);
    binding[8] = of_digits(rng);
    binding[9] = flags(rng);
    if rng.one_in(6) {
        misplace(&mut binding[..3], &buffers, rng);
    }
    Query::ListBinding(buffers, binding)
}

/// A type node with its name in the buffers. At most one of the 16-bit fields is too great.
fn node(buffers: &mut Buffers, edges: &[Vec<u8>], rng: &mut Rng) -> TypeWords {
    let mut node: TypeWords = std::array::from_fn(|_| unread(rng));
    node[0] = match rng.below(8) {
        0..=5 => rng.below(4) as u32,
        6 => rng.between(4, 8) as u32,
        _ => rng.pick(&[5, 5, 9, 0xff, 0x100, 0x102, 0xfffe, 0xffff]),
    };
    node[1] = match rng.below(8) {
        0..=5 => rng.pick(&BASES).0,
        6 => rng.below(61) as u32,
        _ => rng.pick(&[0xff, 0x101, 0x103, 0x113, 0x8003, 0xffff]),
    };
    for field in &mut node[2..5] {
        *field = size(rng);
    }
    if rng.one_in(2) {
        node[4] = 0;
    }
    node[5] = if rng.one_in(5) { rng.pick(&[1, 2, 0xff, 0x100, 0x8000, 0xffff]) } else { 0 };
    if rng.one_in(8) {
        let field = rng.below(6);
        node[field] = match rng.below(4) {
            0 => 0x1_0000,
            1 => node[field] | 0x1_0000,
            2 => node[field] | 1 << rng.between(16, 31),
            _ => rng.word() | 0x8000_0000,
        };
    }
    // Most types that are not named by their name have none.
    let name = if rng.one_in(3) { Vec::new() } else { name(edges, rng) };
    node[10..13].copy_from_slice(&put(buffers, &name, rng));
    node
}

/// Bytes behind the names, or none: then a name may end where its buffer does.
fn finish(buffers: &mut Buffers, rng: &mut Rng) {
    fill(&mut buffers.chunk, rng);
    fill(&mut buffers.edits, rng);
}

/// Rows, columns or elements: mostly few, at times around a number of digits or the greatest there is.
fn size(rng: &mut Rng) -> u32 {
    match rng.below(8) {
        0..=3 => rng.below(5) as u32,
        4 => rng.pick(&[9, 10, 11, 99, 100, 101, 999, 1_000, 1_001, 9_999, 10_000, 10_001]),
        5 => rng.pick(&[0xfe, 0xff, 0x100, 0x7fff, 0x8000, 65_534, 65_535, 65_535]),
        _ => rng.word() >> rng.between(16, 31),
    }
}

/// A word that does not matter: most often one that would be wrong if it did.
fn unread(rng: &mut Rng) -> u32 {
    rng.pick_or_word(&[0, 1, 0xffff_ffff])
}

/// A code from 0 to a little past its table's end, or a great one whose low bits are in the table.
fn code(most: usize, rng: &mut Rng) -> u32 {
    let low = rng.below(most + 1) as u32;
    match rng.below(8) {
        0 => low | 1 << rng.between(4, 31),
        1 => rng.pick_or_word(&[16, 0xff, 0x100, 0xffff, 0x1_0000, 0x7fff_ffff, 0x8000_0000, 0xffff_ffff]),
        _ => low,
    }
}

/// A number of one to ten digits, each as likely.
fn of_digits(rng: &mut Rng) -> u32 {
    let digits = rng.between(1, 10) as u32;
    let low = if digits == 1 { 0 } else { 10u64.pow(digits - 1) };
    let high = (10u64.pow(digits) - 1).min(u64::from(u32::MAX));
    match rng.below(4) {
        0 => low as u32,
        1 => high as u32,
        _ => rng.between(low as usize, high as usize) as u32,
    }
}

fn flags(rng: &mut Rng) -> u32 {
    let unnamed = rng.word() >> rng.below(28) & !0x1f;
    match rng.below(8) {
        0 => 0,
        1..=4 => rng.below(32) as u32,
        5 => unnamed,
        6 => unnamed | rng.below(32) as u32,
        _ => rng.pick_or_word(&[0x20, 0x21, 0x3f, 0xe0, 0x100, 0xffe0, 0x8000_0000, 0xffff_ffe0, 0xffff_ffff]),
    }
}

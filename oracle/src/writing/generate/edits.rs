//! Edits of a readable reflection that leave it readable: names and defaults put into the text of edits,
//! numbers changed, texts that lie elsewhere or over each other.

use super::fields::What;
use crate::generate::plan::{RD11, SM5_1};
use crate::generate::rng::Rng;
use crate::generate::texts::{identifier, name};
use crate::tables::{BINDING_WORDS, BUFFER_WORDS, TYPE_WORDS, VARIABLE_WORDS, WIDTHS};
use crate::utf8::well_formed;
use crate::writing::Held;

/// Some edits, one after the other.
pub fn edit(held: &mut Held, rng: &mut Rng) {
    for _ in 0..rng.pick(&[1, 1, 2, 3, 5, 8]) {
        match rng.below(12) {
            0..=2 => rename(held, rng),
            3..=5 => revalue(held, rng),
            6 | 7 => renumber(held, rng),
            8 => retype(held, rng),
            9 => rd11(held, rng),
            10 => move_texts(held, rng),
            _ => beside(held, rng),
        }
    }
}

/// Puts the bytes behind the text of edits, now and then behind some others; where they lie.
pub fn append(held: &mut Held, bytes: &[u8], rng: &mut Rng) -> [u32; 3] {
    if rng.one_in(3) {
        let other = rng.pick(&[0, b'a', 0xab, 0xff]);
        held.edits.extend(vec![other; rng.between(1, 5)]);
    }
    held.edits.extend(bytes);
    [1, (held.edits.len() - bytes.len()) as u32, bytes.len() as u32]
}

/// A name for a field: new, or as another one is, or nearly so, or a part of it.
fn new_name(held: &Held, rng: &mut Rng) -> Vec<u8> {
    let other = held.text_at(rng.pick(&held.names())).unwrap_or(b"").to_vec();
    let made = match rng.below(8) {
        0 | 1 => name(rng),
        2 => identifier(rng, 1, 2),
        3 => [&other[..], b"2"].concat(),
        4 => other[..other.len().saturating_sub(1)].to_vec(),
        5 => other[other.len().min(1)..].to_vec(),
        _ => other,
    };
    if well_formed(&made) {
        made
    } else {
        identifier(rng, 1, 9)
    }
}

/// Some names get a new text; a type's only where it may have one.
fn rename(held: &mut Held, rng: &mut Rng) {
    let mut fields = held.names();
    if !held.is_major_5() {
        fields.retain(|field| field.what != What::Type);
    }
    let shared = new_name(held, rng);
    let shared_place = append(held, &shared, rng);
    for _ in 0..rng.pick(&[1, 1, 2, 4]) {
        let text = if rng.one_in(3) {
            shared_place
        } else {
            let bytes = if rng.one_in(3) { shared.clone() } else { new_name(held, rng) };
            append(held, &bytes, rng)
        };
        held.set(rng.pick(&fields), text);
    }
}

/// A variable gets a new default: any bytes, another one's, nearly another one's, or none.
fn revalue(held: &mut Held, rng: &mut Rng) {
    let fields = held.fields_of(What::Default);
    if fields.is_empty() {
        return;
    }
    let (field, other) = (rng.pick(&fields), rng.pick(&fields));
    let size = held.words.variables[field.at - 2] as usize;
    let own_size = if size <= 64 { size } else { rng.pick(&[0, 1, 4, 16]) };
    let mut bytes = match rng.below(6) {
        0 => (0..own_size).map(|_| rng.byte()).collect(),
        1 => vec![rng.pick(&[0, 0xab, 0xff]); rng.pick(&[own_size, 1, 3, 4, 8])],
        2 => Vec::new(),
        3 => vec![0; own_size],
        _ => held.text_at(other).unwrap_or(b"").to_vec(),
    };
    if let (Some(last), true) = (bytes.last_mut(), rng.one_in(4)) {
        *last ^= rng.pick(&[1, 0x80]);
    }
    let text = append(held, &bytes, rng);
    held.set(field, text);
    // An empty default goes with any size.
    if !bytes.is_empty() {
        held.words.variables[field.at - 2] = bytes.len() as u32;
    }
}

/// A number becomes another that is allowed there.
fn renumber(held: &mut Held, rng: &mut Rng) {
    let major_5 = held.is_major_5();
    let table = rng.below(5);
    if table == 4 {
        let [version, flags, ..] = &mut held.words.header;
        *version = rng.pick_or_word(&[0, 1, 0xffff_0000]) & 0xffff_00ff | *version & 0xff00;
        *flags = rng.word();
        return;
    }
    if held.count(table) == 0 {
        return;
    }
    let first = rng.below(held.count(table)) * WIDTHS[table];
    let wide = held.words.header[6] == 40;
    let (field, word) = match table {
        0 => {
            let field = rng.between(3, if wide { 11 } else { 9 });
            let word = match field {
                3 => rng.below(14) as u32,
                5 => rng.below(12) as u32,
                9 => rng.below(32) as u32,
                _ => rng.word(),
            };
            (field, word)
        }
        // Whether a buffer's type is 0 decides about sharing.
        1 => (rng.pick(&[4, 5, 6, 6]), rng.pick_or_word(&[0, 0, 1])),
        2 if major_5 => (rng.pick(&[3, 5, 9, 10, 11, 12]), rng.word()),
        2 => (rng.pick(&[3, 5]), rng.word()),
        _ => {
            let half = rng.pick(&[0, 1, 2, 3, 4, 4]);
            let other = if major_5 { rng.between(6, 9) } else { half };
            let field = rng.pick(&[half, other, 16]);
            (field, if field < 6 { rng.pick_or_word(&[0, 0, 1]) & 0xffff } else { rng.word() })
        }
    };
    held.table_mut(table)[first + field] = word;
}

/// One type becomes equal to another, or all but equal: both have as many members.
fn retype(held: &mut Held, rng: &mut Rng) {
    if held.count(3) == 0 {
        return;
    }
    let (from, to) = (rng.below(held.count(3)) * TYPE_WORDS, rng.below(held.count(3)) * TYPE_WORDS);
    if held.words.types[from + 5] != held.words.types[to + 5] {
        return;
    }
    held.words.types.copy_within(from..from + 13, to);
    if rng.one_in(3) {
        let field = rng.below(5);
        held.words.types[to + field] ^= 1;
    }
}

/// Another identifier or stride; with stride 32 bindings have neither space nor id.
fn rd11(held: &mut Held, rng: &mut Rng) {
    if !held.is_major_5() {
        return;
    }
    held.words.header[5] = rng.pick(&[RD11, SM5_1]);
    held.words.header[6] = rng.pick(&[32, 40]);
    held.words.header[7] = rng.pick_or_word(&[0, 1]);
    for binding in held.words.bindings.chunks_exact_mut(BINDING_WORDS) {
        let wide = held.words.header[6] == 40;
        binding[10..12].copy_from_slice(&if wide { [rng.word(), rng.pick(&[0, 1])] } else { [0, 0] });
    }
}

/// The same texts at other places: copied into the edits, or taken where their bytes stand already.
pub fn move_texts(held: &mut Held, rng: &mut Rng) {
    for field in held.fields() {
        if rng.one_in(2) {
            let bytes = held.text_at(field).unwrap_or(b"").to_vec();
            let found = held.edits.windows(bytes.len().max(1)).position(|window| window == bytes);
            let text = match found {
                Some(place) if rng.one_in(2) => [1, place as u32, bytes.len() as u32],
                _ if bytes.is_empty() => empty(held, rng),
                _ => append(held, &bytes, rng),
            };
            held.set(field, text);
        }
    }
}

/// An empty text may lie anywhere, the end of a buffer included.
fn empty(held: &Held, rng: &mut Rng) -> [u32; 3] {
    let source = rng.below(2);
    let length = [held.chunk.len(), held.edits.len()][source];
    let place = rng.below(length + 1);
    [source as u32, rng.pick(&[0, length, place]) as u32, 0]
}

/// What no writer may look at: words behind the records, and what a root would be as a member.
fn beside(held: &mut Held, rng: &mut Rng) {
    for root in held.roots() {
        let words = std::array::from_fn::<u32, 4, _>(|_| rng.pick_or_word(&[0, 2, 0xffff_ffff]));
        held.words.types[root * TYPE_WORDS + 13..][..4].copy_from_slice(&words);
    }
    for (table, width) in [BINDING_WORDS, BUFFER_WORDS, VARIABLE_WORDS, TYPE_WORDS].into_iter().enumerate() {
        let more = rng.pick(&[0, 1, width - 1, width, 2 * width + 3]);
        let words: Vec<u32> = (0..more).map(|_| rng.pick_or_word(&[0, 1, 0xffff_ffff])).collect();
        held.table_vec(table).extend(words);
    }
}

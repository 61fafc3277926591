//! Damage to a chunk that reads: aimed at a word of known meaning, or blunt.

use super::layout::{Field, Laid};
use super::rng::Rng;
use crate::utf8::well_formed;

/// Puts a wrong or at least unusual value into some words whose meaning is known.
pub fn aimed(laid: &mut Laid, rng: &mut Rng) {
    for _ in 0..rng.pick(&[1, 1, 1, 2, 2, 3]) {
        let (field, at) = target(laid, rng);
        let old = u32::from_le_bytes(laid.bytes[at..at + 4].try_into().expect("four bytes"));
        let word = value(field, old, laid, rng);
        laid.bytes[at..at + 4].copy_from_slice(&word.to_le_bytes());
    }
}

/// A word, each kind that is there being as likely as the next.
fn target(laid: &Laid, rng: &mut Rng) -> (Field, usize) {
    let some = rng.pick(&laid.fields).0;
    let kind = match rng.below(6) {
        0 => Field::BindingName,
        1 => rng.pick(&[Field::InputType, Field::Dimension, Field::BindingFlags]),
        2 => rng.pick(&[Field::DefaultOffset, Field::VariableSize]),
        3 => rng.pick(&[Field::MemberType, Field::MemberCount, Field::TypeOffset, Field::TypeName]),
        _ => some,
    };
    let of_kind: Vec<usize> = laid.fields.iter().filter(|found| found.0 == kind).map(|found| found.1).collect();
    if of_kind.is_empty() {
        return rng.pick(&laid.fields);
    }
    (kind, rng.pick(&of_kind))
}

fn value(field: Field, old: u32, laid: &Laid, rng: &mut Rng) -> u32 {
    let length = laid.bytes.len() as u32;
    let near = match field {
        Field::InputType => [12, 13, 14, 15],
        Field::Dimension => [10, 11, 12, 13],
        Field::BindingFlags => [0x1e, 0x1f, 0x20, 0x3f],
        Field::Version => [0x300, 0x400, 0x500, 0x600],
        Field::MemberCount => [old ^ 0x1_0000, old.wrapping_add(0x1_0000), 0xffff, 0x2_0000],
        Field::BufferCount | Field::BindingCount | Field::VariableCount => {
            [old.wrapping_sub(1), old.wrapping_add(1), 0xffff, 2_049]
        }
        Field::Rd11 => [32, 40, 36, old ^ 1],
        _ => [old.wrapping_sub(1), old.wrapping_add(1), old ^ 0x8000_0000, old.wrapping_add(4)],
    };
    match rng.below(8) {
        0..=2 => rng.pick(&near),
        3 => rng.pick(&[0, 1, length - 1, length, length + 1, 0xffff_ffff, 0x7fff_ffff]),
        // Where a record of some size ends exactly at the end, or a byte past it.
        4 => length.wrapping_sub(rng.pick(&[4, 12, 16, 24, 32, 36, 40])).wrapping_add(rng.pick(&[0, 0, 1])),
        // Another word of the chunk: often the offset of something else.
        5 => {
            let at = rng.pick(&laid.fields).1;
            u32::from_le_bytes(laid.bytes[at..at + 4].try_into().expect("four bytes"))
        }
        6 => rng.below(laid.bytes.len()) as u32,
        _ => old ^ 1 << rng.below(32),
    }
}

/// Lets some names be read out of whatever lies there, at places where a text can be read.
pub fn stray_names(laid: &mut Laid, rng: &mut Rng) {
    let is_name = |field: Field| {
        matches!(
            field,
            Field::Creator
                | Field::BindingName
                | Field::BufferName
                | Field::VariableName
                | Field::MemberName
                | Field::TypeName
        )
    };
    let names: Vec<usize> = laid.fields.iter().filter(|found| is_name(found.0)).map(|found| found.1).collect();
    for _ in 0..4 {
        let (at, place) = (rng.pick(&names), rng.below(laid.bytes.len()));
        let tail = &laid.bytes[place..];
        if tail.iter().position(|&byte| byte == 0).is_some_and(|length| well_formed(&tail[..length])) {
            laid.bytes[at..at + 4].copy_from_slice(&(place as u32).to_le_bytes());
        }
    }
}

/// Flips, cuts, grows or overwrites without looking.
pub fn blunt(bytes: &mut Vec<u8>, rng: &mut Rng) {
    for _ in 0..rng.between(1, 3) {
        let length = bytes.len();
        match rng.below(7) {
            0 | 1 if length > 0 => bytes[rng.below(length)] ^= 1 << rng.below(8),
            2 if length > 0 => bytes[rng.below(length)] = rng.byte(),
            3 => bytes.truncate(length - rng.between(0, length.min(12))),
            4 => bytes.truncate(rng.below(length + 1)),
            5 => {
                for _ in 0..rng.between(1, 9) {
                    bytes.push(rng.pick(&[0, 0xab, b'a', 0xff]));
                }
            }
            _ if length >= 4 => {
                let at = rng.below(length - 3) & if rng.one_in(2) { !3 } else { !0 };
                let length = length as u32;
                let word = rng.pick(&[0, 1, length - 1, length, length + 1, 0xffff_ffff, 0x7fff_ffff]);
                bytes[at..at + 4].copy_from_slice(&word.to_le_bytes());
            }
            _ => bytes.push(0),
        }
    }
}

//! The chunks that are timed.

use super::fixed::plain;
use super::plan::{Binding, Buffer, Member, Plan, Type, Value, Variable};
use super::rng::Rng;
use super::texts::identifier;

/// What a chunk holds. Each buffer has as many variables as an array; where there are fewer arrays than buffers, buffers share them.
pub struct Size {
    pub bindings: usize,
    pub buffers: usize,
    pub arrays: usize,
    pub array: usize,
    /// Types without members, and structs.
    pub leaves: usize,
    pub structs: usize,
    /// One variable in so many is a struct, and so many members it has.
    pub one_in: usize,
    pub members: usize,
}

pub const TYPICAL: Size =
    Size { bindings: 60, buffers: 8, arrays: 8, array: 15, leaves: 12, structs: 8, one_in: 6, members: 4 };

/// Inside 65,536 bytes only since buffers share arrays of variables.
pub const NEAR_LIMIT: Size =
    Size { bindings: 1_000, buffers: 50, arrays: 5, array: 40, leaves: 12, structs: 8, one_in: 2, members: 2 };

/// A typical mixture in as many records as a chunk of so many KiB holds.
pub fn growing(kibibytes: usize) -> Vec<u8> {
    let most = kibibytes * 1_024;
    let sized = |variables: usize| {
        let buffers = (variables / 15).clamp(1, 64);
        let array = (variables / buffers).max(1);
        let (leaves, structs) = ((3 * kibibytes).min(12), kibibytes.min(8));
        let bindings = variables / 2;
        chunk(&Size { bindings, buffers, arrays: buffers, array, leaves, structs, one_in: 6, members: 4 }, 5)
    };
    let mut variables = 1;
    while sized(variables + 1).len() <= most {
        variables += 1;
    }
    sized(variables)
}

pub fn chunk(size: &Size, major: u32) -> Vec<u8> {
    let mut rng = Rng::new(9, u64::from(major));
    let mut plan = Plan::empty(major);
    plan.creator = b"Microsoft (R) HLSL Shader Compiler 10.1".to_vec();
    for index in 0..size.bindings {
        let words = [2 + index as u32 % 3, 5, 4, 0xffff_ffff, index as u32, 1, 0xc, 0, 0];
        plan.bindings.push(Binding { name: identifier(&mut rng, 6, 20), words });
    }
    for index in 0..size.leaves as u16 {
        let halves = [index % 4, [3, 3, 2, 19][usize::from(index % 4)], 1 + index % 4, 4, index % 3];
        plan.types.push(Type { halves, ..Type::default() });
    }
    for _ in 0..size.structs {
        let member = |rng: &mut Rng| Member { name: identifier(rng, 6, 20), of: rng.below(size.leaves), offset: 16 };
        let members = (0..size.members).map(|_| member(&mut rng)).collect();
        let name = Some(identifier(&mut rng, 6, 20));
        plan.types.push(Type { halves: [5, 0, 1, 1, 0], members, name, ..Type::default() });
    }
    let mut number = 0;
    for _ in 0..size.arrays {
        let mut array = Vec::new();
        for _ in 0..size.array {
            let is_struct = number % size.one_in == 0;
            let of = if is_struct { size.leaves + rng.below(size.structs) } else { rng.below(size.leaves) };
            let value = if number % 7 == 1 { Value::Bytes((0..16).map(|_| rng.byte()).collect()) } else { Value::None };
            let name = identifier(&mut rng, 6, 20);
            array.push(Variable { name, offset: 16 * number as u32, size: 16, flags: 2, of, value, slots: [0; 4] });
            number += 1;
        }
        plan.arrays.push(array);
    }
    for index in 0..size.buffers {
        plan.buffers.push(Buffer {
            name: identifier(&mut rng, 6, 20),
            array: index % size.arrays,
            count: size.array,
            words: [16 * size.array as u32, 0, 0],
            ..Buffer::default()
        });
    }
    plain(&plan).bytes
}

/// The chunk with the most bytes of names that is known within the limits: all 8,257 names are the same 60,000 bytes and more, made of this character.
pub fn longest_names(character: &str) -> Vec<u8> {
    same_names(character, 32, 1)
}

/// The same with names of half that length, and 256 types of which two are equal up to their members' own types.
pub fn alike_types(character: &str) -> Vec<u8> {
    same_names(character, 256, 256)
}

/// A chunk of 65,536 bytes: 64 buffers share variables, 32 each, which are structs of one member, and every name is the same text, as long as there is
/// room. Types differ in the columns of their members' types.
fn same_names(character: &str, variables: u32, types: u32) -> Vec<u8> {
    let mut bytes = vec![0; 65_536];
    let mut put = |at: u32, words: &[u32]| {
        for (index, word) in words.iter().enumerate() {
            bytes[at as usize + 4 * index..][..4].copy_from_slice(&word.to_le_bytes());
        }
    };
    let first_variable = 60 + 64 * 24;
    let first_type = first_variable + 40 * variables;
    let names = first_type + 84 * types;
    put(0, &[64, 60, 0, 60, 0x500, 0, names, 0x3131_4452, 60, 24, 32, 40, 36, 12, 0]);
    for index in 0..64 {
        put(60 + 24 * index, &[names, 32, first_variable + 40 * (32 * index % variables), 512, 0, 0]);
    }
    for index in 0..variables {
        let root = first_type + 84 * (index % types) + 48;
        put(first_variable + 40 * index, &[names, 16 * index, 16, 2, root, 0, u32::MAX, 0, u32::MAX, 0]);
    }
    for index in 0..types {
        let member = first_type + 84 * index;
        let (leaf, root) = (member + 12, member + 48);
        put(member, &[names, leaf, 0]);
        put(leaf, &[1 | 3 << 16, 1 | (4 + index) << 16, 0, 0, 0, 0, 0, 0, names]);
        put(root, &[5, 1 | 4 << 16, 1 << 16, member, 0, 0, 0, 0, names]);
    }
    let mut at = names as usize;
    while at + character.len() < bytes.len() {
        bytes[at..at + character.len()].copy_from_slice(character.as_bytes());
        at += character.len();
    }
    bytes
}

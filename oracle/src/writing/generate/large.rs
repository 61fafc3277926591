//! Reflections near the limits of document 01 whose canonical form fits, or just does not: many variables,
//! many nodes, thousands of distinct names, distinct defaults, many types that are nearly equal.

use super::lay::{lay, Style};
use crate::generate::rng::Rng;
use crate::rdef::{CBufferDef, CBufferVariable, MemberDesc, Rd11Header, ResourceBinding, ResourceDef, TypeDesc};
use crate::writing::Held;
use std::borrow::Cow;

/// How many of what.
#[derive(Clone, Copy)]
pub struct Size {
    pub major: u32,
    pub bindings: usize,
    pub buffers: usize,
    pub variables: usize,
    /// How many members each type has.
    pub members: usize,
    /// How many distinct types there are; each variable takes the next.
    pub types: usize,
    /// Whether all names differ, or none.
    pub names: bool,
    /// One variable in so many has a default of four bytes, all of them distinct; 0 for none.
    pub defaults: usize,
}

const FOUR: Size =
    Size { major: 4, bindings: 0, buffers: 64, variables: 2_048, members: 0, types: 1, names: true, defaults: 0 };
const FIVE: Size = Size { major: 5, ..FOUR };
const BINDINGS: Size = Size { bindings: 1_024, buffers: 8, variables: 64, members: 63, types: 8, defaults: 1, ..FOUR };

/// The sizes that are compared and timed, each with a name.
pub const SIZES: [(&str, Size); 14] = [
    ("2,048 variables, 4,096 nodes, 1,024 defaults", Size { members: 1, defaults: 2, ..FOUR }),
    ("1,400 variables, 2,800 nodes, 350 defaults", Size { variables: 1_400, members: 1, defaults: 4, ..FIVE }),
    ("1,980 variables and defaults", Size { buffers: 8, variables: 1_980, defaults: 1, ..FOUR }),
    ("1,330 variables and defaults", Size { buffers: 8, variables: 1_330, defaults: 1, ..FIVE }),
    ("2,048 variables of 90 structs", Size { members: 1, types: 90, ..FOUR }),
    ("1,400 variables of 40 structs", Size { variables: 1_400, members: 1, types: 40, ..FIVE }),
    ("a struct of 4,095 names", Size { buffers: 1, variables: 1, members: 4_095, ..FOUR }),
    ("a struct of 4,095 names", Size { buffers: 1, variables: 1, members: 4_095, ..FIVE }),
    ("1,024 bindings, 4,096 nodes", BINDINGS),
    ("1,024 bindings, 4,096 nodes", Size { major: 5, ..BINDINGS }),
    ("1,300 distinct types", Size { buffers: 1, variables: 1_300, types: 1_300, ..FOUR }),
    ("700 distinct types", Size { buffers: 1, variables: 700, types: 700, ..FIVE }),
    ("4,096 nodes that are equal", Size { buffers: 1, variables: 64, members: 63, names: false, ..FOUR }),
    ("2,048 variables, too long", Size { members: 1, ..FIVE }),
];

/// Letters and digits, shortest first: number 0 is `a`.
pub fn word(number: usize) -> String {
    let letters = b"abcdefghijklmnopqrstuvwxyzABCDEFGHIJKLMNOPQRSTUVWXYZ0123456789_";
    let mut rest = number + 1;
    let mut word = Vec::new();
    while rest > 0 {
        word.push(letters[(rest - 1) % letters.len()]);
        rest = (rest - 1) / letters.len();
    }
    word.reverse();
    String::from_utf8(word).expect("letters are UTF-8")
}

/// The reflection of this size, as rdef.rs has it. `turn` makes two of the same size differ.
pub fn resource_def(size: &Size, turn: usize) -> ResourceDef<'static> {
    let mut next = turn % 7;
    let mut name = || -> Cow<'static, str> {
        next += 1;
        Cow::Owned(word(if size.names { next } else { 0 }))
    };
    let bindings = (0..size.bindings).map(|index| binding(name(), index as u32)).collect();
    let extra = (size.major == 5).then_some([0; 4]);
    let kind = |index: usize, name: &mut dyn FnMut() -> Cow<'static, str>| TypeDesc {
        class: if size.members > 0 { 5 } else { 1 },
        var_type: 3,
        rows: 1 + (index / 200) as u16,
        columns: (index % 200) as u16,
        elements: 0,
        members: (0..size.members).map(|member| leaf(name(), member, extra)).collect(),
        sm5_extra: extra,
        name: Cow::Borrowed(""),
    };
    let types: Vec<TypeDesc<'static>> = (0..size.types).map(|index| kind(index, &mut name)).collect();
    let slot = (size.major == 5).then_some(0);
    let mut buffers: Vec<CBufferDef<'static>> = Vec::new();
    for buffer in 0..size.buffers {
        let first = size.variables * buffer / size.buffers;
        let end = size.variables * (buffer + 1) / size.buffers;
        let variables = (first..end).map(|index| CBufferVariable {
            name: name(),
            offset: 16 * index as u32,
            size: 4,
            flags: 2,
            var_type: types[index % types.len()].clone(),
            default_value: Cow::Owned(default(index, size, turn)),
            texture_start: slot,
            texture_size: slot,
            sampler_start: slot,
            sampler_size: slot,
        });
        let variables = variables.collect();
        buffers.push(CBufferDef { name: Cow::Owned(format!("b{buffer}")), variables, size: 16, flags: 0, cb_type: 0 });
    }
    ResourceDef {
        constant_buffers: buffers,
        bindings,
        creator: Cow::Borrowed("compiler"),
        target_version: size.major << 8,
        compile_flags: 0,
        rd11: (size.major == 5).then_some(Rd11Header::SM5_0),
        original_data: None,
        original_canonical: None,
    }
}

fn default(variable: usize, size: &Size, turn: usize) -> Vec<u8> {
    if size.defaults == 0 || variable % size.defaults != 0 {
        return Vec::new();
    }
    ((variable + turn) as u32 + 1).to_le_bytes().to_vec()
}

fn binding(name: Cow<'static, str>, number: u32) -> ResourceBinding<'static> {
    ResourceBinding {
        name,
        input_type: 2 + number % 3,
        return_type: 5,
        dimension: 4,
        num_samples: 0xffff_ffff,
        bind_point: number,
        bind_count: 1,
        flags: 0xc,
        space: 0,
        id: 0,
    }
}

fn leaf(name: Cow<'static, str>, number: usize, extra: Option<[u32; 4]>) -> MemberDesc<'static> {
    let member_type = TypeDesc {
        class: 0,
        var_type: 3,
        rows: 1,
        columns: 1 + (number % 4) as u16,
        elements: 0,
        members: Vec::new(),
        sm5_extra: extra,
        name: Cow::Borrowed(""),
    };
    MemberDesc { name, member_type, offset: 16 * number as u32 }
}

/// The texts all in the chunk, each once.
pub fn held(size: &Size, turn: usize) -> Held {
    lay(&resource_def(size, turn), Style { chunk: true, edits: false, shared: false }, &mut Rng::new(0, 0))
}

/// One of the sizes, its texts in either buffer.
pub fn random(rng: &mut Rng) -> Held {
    let size = rng.pick(&SIZES).1;
    lay(&resource_def(&size, rng.below(1_000)), Style { shared: false, ..Style::random(rng) }, rng)
}

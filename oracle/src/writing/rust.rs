//! A reflection in lent tables as rdef.rs has it, and the bytes that rdef.rs writes for it.

use super::Held;
use crate::rdef::{CBufferDef, CBufferVariable, MemberDesc, Rd11Header, ResourceBinding, ResourceDef, TypeDesc};
use crate::tables::{BINDING_WORDS, BUFFER_WORDS, TYPE_WORDS, VARIABLE_WORDS};
use crate::ChunkWriter;
use std::borrow::Cow;

/// The canonical form of a readable reflection.
pub fn canonical(held: &Held) -> Vec<u8> {
    resource_def(held).write_payload()
}

/// A readable reflection, without original bytes: what `write_payload` gives is the canonical form.
pub fn resource_def(held: &Held) -> ResourceDef<'_> {
    let [version, flags, _, _, _, identifier, stride, slots, ..] = held.words.header;
    let mut rest = Rest { held, variables: 0, types: 0 };
    let buffers = held.words.buffers.chunks_exact(BUFFER_WORDS).take(held.count(1));
    ResourceDef {
        constant_buffers: buffers.map(|words| rest.buffer(words)).collect(),
        bindings: held
            .words
            .bindings
            .chunks_exact(BINDING_WORDS)
            .take(held.count(0))
            .map(|b| binding(held, b))
            .collect(),
        creator: name(held, &held.words.header[2..5]),
        target_version: version,
        compile_flags: flags,
        rd11: held.is_major_5().then(|| Rd11Header {
            identifier,
            resource_binding_stride: stride,
            interface_slot_count: slots,
            ..Rd11Header::SM5_0
        }),
        original_data: None,
        original_canonical: None,
    }
}

fn bytes<'a>(held: &'a Held, text: &[u32]) -> &'a [u8] {
    held.text(text).expect("a text of a readable reflection is in place")
}

fn name<'a>(held: &'a Held, text: &[u32]) -> Cow<'a, str> {
    Cow::Borrowed(std::str::from_utf8(bytes(held, text)).expect("a name of a readable reflection is UTF-8"))
}

fn binding<'a>(held: &'a Held, words: &[u32]) -> ResourceBinding<'a> {
    ResourceBinding {
        name: name(held, &words[..3]),
        input_type: words[3],
        return_type: words[4],
        dimension: words[5],
        num_samples: words[6],
        bind_point: words[7],
        bind_count: words[8],
        flags: words[9],
        space: words[10],
        id: words[11],
    }
}

/// The first variable and the first type node that are not used yet.
struct Rest<'a> {
    held: &'a Held,
    variables: usize,
    types: usize,
}

impl<'a> Rest<'a> {
    fn buffer(&mut self, words: &[u32]) -> CBufferDef<'a> {
        CBufferDef {
            name: name(self.held, &words[..3]),
            variables: (0..words[3]).map(|_| self.variable()).collect(),
            size: words[4],
            flags: words[5],
            cb_type: words[6],
        }
    }

    fn variable(&mut self) -> CBufferVariable<'a> {
        let words = &self.held.words.variables[self.variables * VARIABLE_WORDS..][..VARIABLE_WORDS];
        self.variables += 1;
        let slot = |index: usize| self.held.is_major_5().then_some(words[9 + index]);
        CBufferVariable {
            name: name(self.held, &words[..3]),
            offset: words[3],
            size: words[4],
            flags: words[5],
            default_value: Cow::Borrowed(bytes(self.held, &words[6..9])),
            texture_start: slot(0),
            texture_size: slot(1),
            sampler_start: slot(2),
            sampler_size: slot(3),
            var_type: self.type_desc().member_type,
        }
    }

    /// The next node, with the name and offset that it has as a member. A root's are made up: it is none.
    fn type_desc(&mut self) -> MemberDesc<'a> {
        let words = &self.held.words.types[self.types * TYPE_WORDS..][..TYPE_WORDS];
        self.types += 1;
        let members = (0..words[5]).map(|_| {
            let member = &self.held.words.types[self.types * TYPE_WORDS + 13..][..3];
            MemberDesc { name: name(self.held, member), ..self.type_desc() }
        });
        let member_type = TypeDesc {
            class: words[0] as u16,
            var_type: words[1] as u16,
            rows: words[2] as u16,
            columns: words[3] as u16,
            elements: words[4] as u16,
            members: members.collect(),
            sm5_extra: self.held.is_major_5().then(|| std::array::from_fn(|index| words[6 + index])),
            name: name(self.held, &words[10..13]),
        };
        MemberDesc { name: Cow::Borrowed(""), member_type, offset: words[16] }
    }
}

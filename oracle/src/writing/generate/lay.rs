//! Lays a reflection, as rdef.rs has it, into tables and two buffers. What lies in the chunk beside the texts
//! need not read as a chunk.

use crate::generate::rng::Rng;
use crate::rdef::{CBufferVariable, ResourceDef, TypeDesc};
use crate::writing::Held;

/// In which buffer the texts go, and whether they are taken where their bytes stand already.
#[derive(Clone, Copy)]
pub struct Style {
    pub chunk: bool,
    pub edits: bool,
    pub shared: bool,
}

impl Style {
    pub fn random(rng: &mut Rng) -> Style {
        let (chunk, edits) = rng.pick(&[(true, false), (false, true), (true, true)]);
        Style { chunk, edits, shared: rng.one_in(2) }
    }
}

pub fn lay(def: &ResourceDef<'_>, style: Style, rng: &mut Rng) -> Held {
    let mut layer = Layer { held: Held::default(), style, rng };
    let rd11 = def.rd11.map_or([0; 8], |rd11| rd11.to_words());
    let [source, place, length] = layer.text(def.creator.as_bytes());
    layer.held.words.header[..8].copy_from_slice(&[
        def.target_version,
        def.compile_flags,
        source,
        place,
        length,
        rd11[0],
        rd11[3],
        rd11[7],
    ]);
    for b in &def.bindings {
        let name = layer.text(b.name.as_bytes());
        layer.held.words.bindings.extend(name);
        let words = [b.input_type, b.return_type, b.dimension, b.num_samples, b.bind_point, b.bind_count, b.flags];
        layer.held.words.bindings.extend(words);
        layer.held.words.bindings.extend([b.space, b.id]);
    }
    for buffer in &def.constant_buffers {
        let name = layer.text(buffer.name.as_bytes());
        layer.held.words.buffers.extend(name);
        layer.held.words.buffers.extend([buffer.variables.len() as u32, buffer.size, buffer.flags, buffer.cb_type]);
        buffer.variables.iter().for_each(|variable| layer.variable(variable));
    }
    layer.held.words.count_records();
    layer.held
}

struct Layer<'r> {
    held: Held,
    style: Style,
    rng: &'r mut Rng,
}

impl Layer<'_> {
    fn variable(&mut self, variable: &CBufferVariable<'_>) {
        let name = self.text(variable.name.as_bytes());
        let value = self.text(&variable.default_value);
        let slots = [variable.texture_start, variable.texture_size, variable.sampler_start, variable.sampler_size];
        self.held.words.variables.extend(name);
        self.held.words.variables.extend([variable.offset, variable.size, variable.flags]);
        self.held.words.variables.extend(value);
        self.held.words.variables.extend(slots.map(|slot| slot.unwrap_or(0)));
        self.type_desc(&variable.var_type, [0; 4]);
    }

    fn type_desc(&mut self, node: &TypeDesc<'_>, member: [u32; 4]) {
        let name = self.text(node.name.as_bytes());
        let types = &mut self.held.words.types;
        types.extend([node.class, node.var_type, node.rows, node.columns, node.elements].map(u32::from));
        types.push(node.members.len() as u32);
        types.extend(node.sm5_extra.unwrap_or([0; 4]));
        types.extend(name);
        types.extend(member);
        for inner in &node.members {
            let [source, place, length] = self.text(inner.name.as_bytes());
            self.type_desc(&inner.member_type, [source, place, length, inner.offset]);
        }
    }

    fn text(&mut self, bytes: &[u8]) -> [u32; 3] {
        let source = match self.style {
            Style { chunk: true, edits: true, .. } => self.rng.below(2),
            Style { edits, .. } => usize::from(edits),
        };
        let buffer = if source == 0 { &mut self.held.chunk } else { &mut self.held.edits };
        let found = if self.style.shared || bytes.is_empty() {
            buffer.windows(bytes.len().max(1)).position(|window| window.starts_with(bytes))
        } else {
            None
        };
        let place = found.unwrap_or_else(|| {
            buffer.extend(bytes);
            buffer.len() - bytes.len()
        });
        [source as u32, place as u32, bytes.len() as u32]
    }
}

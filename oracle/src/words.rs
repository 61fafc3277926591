//! The words of document 01 from what rdef.rs itself reads. A place is how far the borrowed part lies
//! behind the chunk's start.

use crate::rdef::{parse_rdef, CBufferVariable, ResourceDef, TypeDesc};
use crate::tables::{Answer, Text};

/// What `parse_rdef` makes of the chunk. Never call it for a chunk that is refused with 15: a walk that
/// doubles at each level may not end.
pub fn read(chunk: &[u8]) -> Option<Answer> {
    parse_rdef(chunk).map(|reflection| words(chunk, &reflection))
}

/// The words of a reflection that was read from this chunk.
pub fn words(chunk: &[u8], reflection: &ResourceDef<'_>) -> Answer {
    let mut answer = Answer::default();
    let [source, place, length] = text(chunk, reflection.creator.as_bytes());
    let rd11 = reflection.rd11.map_or([0; 8], |rd11| rd11.to_words());
    answer.header[..8].copy_from_slice(&[
        reflection.target_version,
        reflection.compile_flags,
        source,
        place,
        length,
        rd11[0],
        rd11[3],
        rd11[7],
    ]);
    for binding in &reflection.bindings {
        answer.bindings.extend(text(chunk, binding.name.as_bytes()));
        answer.bindings.extend([
            binding.input_type,
            binding.return_type,
            binding.dimension,
            binding.num_samples,
            binding.bind_point,
            binding.bind_count,
            binding.flags,
            binding.space,
            binding.id,
        ]);
    }
    for buffer in &reflection.constant_buffers {
        answer.buffers.extend(text(chunk, buffer.name.as_bytes()));
        answer.buffers.extend([buffer.variables.len() as u32, buffer.size, buffer.flags, buffer.cb_type]);
        for variable in &buffer.variables {
            put_variable(chunk, variable, &mut answer);
        }
    }
    answer.count_records();
    answer
}

fn put_variable(chunk: &[u8], variable: &CBufferVariable<'_>, answer: &mut Answer) {
    answer.variables.extend(text(chunk, variable.name.as_bytes()));
    answer.variables.extend([variable.offset, variable.size, variable.flags]);
    answer.variables.extend(text(chunk, &variable.default_value));
    let slots = [variable.texture_start, variable.texture_size, variable.sampler_start, variable.sampler_size];
    answer.variables.extend(slots.map(|slot| slot.unwrap_or(0)));
    put_type(chunk, &variable.var_type, [0; 4], answer);
}

/// The node, then its members' nodes. `member` is the member's name and offset, zeros for a root.
fn put_type(chunk: &[u8], node: &TypeDesc<'_>, member: [u32; 4], answer: &mut Answer) {
    answer.types.extend([node.class, node.var_type, node.rows, node.columns, node.elements].map(u32::from));
    answer.types.push(node.members.len() as u32);
    answer.types.extend(node.sm5_extra.unwrap_or([0; 4]));
    answer.types.extend(text(chunk, node.name.as_bytes()));
    answer.types.extend(member);
    for inner in &node.members {
        let [source, place, length] = text(chunk, inner.name.as_bytes());
        put_type(chunk, &inner.member_type, [source, place, length, inner.offset], answer);
    }
}

/// Source, place and length of a part. An empty part that lies elsewhere is a constant of rdef.rs.
fn text(chunk: &[u8], part: &[u8]) -> [u32; 3] {
    let place = (part.as_ptr() as usize).wrapping_sub(chunk.as_ptr() as usize);
    if place <= chunk.len() {
        assert!(place + part.len() <= chunk.len(), "a part must lie in the chunk");
        return Text { place: place as u32, length: part.len() as u32 }.words();
    }
    assert!(part.is_empty(), "a part must lie in the chunk");
    Text::NONE.words()
}

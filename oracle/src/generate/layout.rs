//! Lays a plan out as bytes, in order or anyhow, and remembers which word stands where.

use super::plan::{Plan, Value};
use super::rng::Rng;

/// What a word of the chunk says, so that damage can aim at it.
#[derive(Clone, Copy, PartialEq, Eq, Debug)]
pub enum Field {
    BufferCount,
    BufferOffset,
    BindingCount,
    BindingOffset,
    Version,
    Creator,
    Rd11,
    BindingName,
    InputType,
    Dimension,
    BindingFlags,
    BufferName,
    VariableCount,
    VariableOffset,
    VariableName,
    VariableSize,
    TypeOffset,
    DefaultOffset,
    MemberCount,
    MemberOffset,
    TypeName,
    MemberName,
    MemberType,
    /// Any number will do.
    Free,
}

/// A chunk, and the place and meaning of each of its words.
#[derive(Clone, Default)]
pub struct Laid {
    pub bytes: Vec<u8>,
    pub fields: Vec<(Field, usize)>,
}

/// How a chunk is laid out.
#[derive(Clone, Copy)]
pub struct Style {
    pub shuffled: bool,
    pub aligned: bool,
    pub gaps: bool,
    /// Equal texts, and equal defaults, are written once.
    pub shared: bool,
    /// A text that ends another one is read out of it.
    pub tails: bool,
    pub fill: u8,
}

impl Style {
    pub const PLAIN: Style =
        Style { shuffled: false, aligned: true, gaps: false, shared: true, tails: false, fill: 0xab };

    pub fn random(rng: &mut Rng) -> Style {
        Style {
            shuffled: rng.one_in(2),
            aligned: rng.one_in(2),
            gaps: rng.one_in(3),
            shared: rng.one_in(2),
            tails: rng.one_in(2),
            fill: rng.pick(&[0xab, 0, 0xff, b'a']),
        }
    }
}

enum Block {
    Bindings,
    Buffers,
    Array(usize),
    Members(usize),
    Type(usize),
    Text(usize),
    Value(usize),
}

/// Bytes that something points to, and their place.
type Pool = Vec<(Vec<u8>, usize)>;

struct Places {
    bindings: usize,
    buffers: usize,
    arrays: Vec<usize>,
    members: Vec<usize>,
    types: Vec<usize>,
    texts: Pool,
    values: Pool,
}

pub fn lay(plan: &Plan, style: Style, rng: &mut Rng) -> Laid {
    let (places, length) = place(plan, style, rng);
    write(plan, &places, vec![style.fill; length], rng)
}

/// Gives every part its place: first all sizes, so that words may point forwards and backwards.
fn place(plan: &Plan, style: Style, rng: &mut Rng) -> (Places, usize) {
    let major_5 = plan.rd11.is_some();
    let mut places = Places {
        bindings: 0,
        buffers: 0,
        arrays: vec![0; plan.arrays.len()],
        members: vec![0; plan.types.len()],
        types: vec![0; plan.types.len()],
        texts: texts(plan, style),
        values: values(plan, style),
    };
    let mut blocks = vec![Block::Bindings, Block::Buffers];
    blocks.extend((0..plan.arrays.len()).map(Block::Array));
    blocks.extend((0..plan.types.len()).flat_map(|index| [Block::Members(index), Block::Type(index)]));
    blocks.extend((0..places.texts.len()).map(Block::Text));
    blocks.extend((0..places.values.len()).map(Block::Value));
    if style.shuffled {
        rng.shuffle(&mut blocks);
    }
    let mut cursor = if major_5 { 60 } else { 28 };
    for block in blocks {
        if style.aligned && !matches!(block, Block::Text(_)) {
            cursor += (4 - cursor % 4) % 4;
        }
        if style.gaps && rng.one_in(3) {
            cursor += rng.between(1, 7);
        }
        let (place, size) = match block {
            Block::Bindings => (&mut places.bindings, plan.bindings.len() * binding_stride(plan)),
            Block::Buffers => (&mut places.buffers, plan.buffers.len() * 24),
            Block::Array(index) => {
                (&mut places.arrays[index], plan.arrays[index].len() * if major_5 { 40 } else { 24 })
            }
            Block::Members(index) => (&mut places.members[index], plan.types[index].members.len() * 12),
            Block::Type(index) => (&mut places.types[index], if major_5 { 36 } else { 16 }),
            Block::Text(index) => {
                let size = places.texts[index].0.len() + 1;
                (&mut places.texts[index].1, size)
            }
            Block::Value(index) => {
                let size = places.values[index].0.len();
                (&mut places.values[index].1, size)
            }
        };
        *place = cursor;
        cursor += size;
    }
    (places, cursor)
}

fn binding_stride(plan: &Plan) -> usize {
    plan.rd11.map_or(32, |words| if words[3] == 40 { 40 } else { 32 })
}

fn texts(plan: &Plan, style: Style) -> Pool {
    let mut all: Vec<&Vec<u8>> = vec![&plan.creator];
    all.extend(plan.bindings.iter().map(|binding| &binding.name));
    all.extend(plan.buffers.iter().map(|buffer| &buffer.name));
    all.extend(plan.arrays.iter().flatten().map(|variable| &variable.name));
    for kind in &plan.types {
        all.extend(kind.members.iter().map(|member| &member.name));
        all.extend(plan.rd11.is_some().then_some(kind.name.as_ref()).flatten());
    }
    let mut pool: Pool = Vec::new();
    for text in all {
        let held = |other: &(Vec<u8>, usize)| if style.tails { other.0.ends_with(text) } else { other.0 == *text };
        if !(style.shared || style.tails) || !pool.iter().any(held) {
            pool.push((text.clone(), 0));
        }
    }
    pool
}

fn values(plan: &Plan, style: Style) -> Pool {
    let mut pool: Pool = Vec::new();
    for variable in plan.arrays.iter().flatten() {
        if let Value::Bytes(bytes) = &variable.value {
            if !style.shared || !pool.iter().any(|other| other.0 == *bytes) {
                pool.push((bytes.clone(), 0));
            }
        }
    }
    pool
}

fn write(plan: &Plan, places: &Places, bytes: Vec<u8>, rng: &mut Rng) -> Laid {
    let mut laid = Laid { bytes, fields: Vec::new() };
    let length = laid.bytes.len();
    for (bytes, place) in &places.texts {
        laid.bytes[*place..place + bytes.len()].copy_from_slice(bytes);
        laid.bytes[place + bytes.len()] = 0;
    }
    for (bytes, place) in &places.values {
        laid.bytes[*place..place + bytes.len()].copy_from_slice(bytes);
    }
    laid.put(0, Field::BufferCount, plan.buffers.len());
    laid.put(4, Field::BufferOffset, places.buffers);
    laid.put(8, Field::BindingCount, plan.bindings.len());
    laid.put(12, Field::BindingOffset, places.bindings);
    laid.put(16, Field::Version, plan.version as usize);
    laid.put(20, Field::Free, plan.flags as usize);
    laid.put_text(24, Field::Creator, &places.texts, &plan.creator);
    for (index, word) in plan.rd11.into_iter().flatten().enumerate() {
        laid.put(28 + 4 * index, if index == 7 { Field::Free } else { Field::Rd11 }, word as usize);
    }
    for (index, binding) in plan.bindings.iter().enumerate() {
        let at = places.bindings + index * binding_stride(plan);
        laid.put_text(at, Field::BindingName, &places.texts, &binding.name);
        for (field, word) in binding.words.into_iter().enumerate().take(binding_stride(plan) / 4 - 1) {
            let meaning = match field {
                0 => Field::InputType,
                2 => Field::Dimension,
                6 => Field::BindingFlags,
                _ => Field::Free,
            };
            laid.put(at + 4 + 4 * field, meaning, word as usize);
        }
    }
    let stride = if plan.rd11.is_some() { 40 } else { 24 };
    for (index, buffer) in plan.buffers.iter().enumerate() {
        let at = places.buffers + index * 24;
        laid.put_text(at, Field::BufferName, &places.texts, &buffer.name);
        laid.put(at + 4, Field::VariableCount, buffer.count);
        laid.put(at + 8, Field::VariableOffset, places.arrays[buffer.array] + buffer.first * stride);
        for (field, word) in buffer.words.into_iter().enumerate() {
            laid.put(at + 12 + 4 * field, Field::Free, word as usize);
        }
    }
    for (array, &start) in plan.arrays.iter().zip(&places.arrays) {
        for (index, variable) in array.iter().enumerate() {
            let at = start + index * stride;
            let size = (variable.size as usize).min(length - 1);
            let (value, size) = match &variable.value {
                Value::None => (0, variable.size as usize),
                Value::Bytes(bytes) => (find(&places.values, bytes, index), bytes.len()),
                Value::Anywhere => (rng.between(1, length - size), size),
                Value::AtEnd => (length - size, size),
            };
            laid.put_text(at, Field::VariableName, &places.texts, &variable.name);
            laid.put(at + 4, Field::Free, variable.offset as usize);
            laid.put(at + 8, Field::VariableSize, size);
            laid.put(at + 12, Field::Free, variable.flags as usize);
            laid.put(at + 16, Field::TypeOffset, places.types[variable.of]);
            laid.put(at + 20, Field::DefaultOffset, value);
            for (slot, &word) in variable.slots.iter().enumerate().take(stride / 4 - 6) {
                laid.put(at + 24 + 4 * slot, Field::Free, word as usize);
            }
        }
    }
    write_types(plan, places, &mut laid);
    laid
}

fn write_types(plan: &Plan, places: &Places, laid: &mut Laid) {
    for (index, kind) in plan.types.iter().enumerate() {
        let at = places.types[index];
        let [class, variable_type, rows, columns, elements] = kind.halves.map(usize::from);
        laid.put(at, Field::Free, class | variable_type << 16);
        laid.put(at + 4, Field::Free, rows | columns << 16);
        laid.put(at + 8, Field::MemberCount, elements | kind.members.len() << 16);
        laid.put(at + 12, Field::MemberOffset, places.members[index]);
        if plan.rd11.is_some() {
            for (field, word) in kind.extra.into_iter().enumerate() {
                laid.put(at + 16 + 4 * field, Field::Free, word as usize);
            }
            match &kind.name {
                None => laid.put(at + 32, Field::TypeName, 0),
                Some(name) => laid.put_text(at + 32, Field::TypeName, &places.texts, name),
            }
        }
        for (number, member) in kind.members.iter().enumerate() {
            let at = places.members[index] + 12 * number;
            laid.put_text(at, Field::MemberName, &places.texts, &member.name);
            laid.put(at + 4, Field::MemberType, places.types[member.of]);
            laid.put(at + 8, Field::Free, member.offset as usize);
        }
    }
}

/// Where bytes can be read: at a place of their own, or as the end of longer ones. `turn` chooses among
/// equal ones.
fn find(pool: &Pool, bytes: &[u8], turn: usize) -> usize {
    let own: Vec<usize> = pool.iter().filter(|other| other.0 == bytes).map(|other| other.1).collect();
    if !own.is_empty() {
        return own[turn % own.len()];
    }
    pool.iter().find(|other| other.0.ends_with(bytes)).map_or(0, |(longer, place)| place + longer.len() - bytes.len())
}

impl Laid {
    fn put_text(&mut self, at: usize, field: Field, pool: &Pool, bytes: &[u8]) {
        self.put(at, field, find(pool, bytes, self.fields.len()));
    }

    fn put(&mut self, at: usize, field: Field, word: usize) {
        self.bytes[at..at + 4].copy_from_slice(&(word as u32).to_le_bytes());
        self.fields.push((field, at));
    }
}

//! What a chunk says, before it is laid out. Types stand in one list, and members point into it, so that
//! a descriptor can be shared, used twice side by side, or put on a ring.

use super::rng::Rng;
use super::texts::{identifier, name};

pub const RD11: u32 = 0x3131_4452;
pub const SM5_1: u32 = 0x2544_1313;

/// The eight RD11 words with these free choices.
pub fn rd11(identifier: u32, binding_stride: u32, slots: u32) -> [u32; 8] {
    [identifier, 60, 24, binding_stride, 40, 36, 12, slots]
}

#[derive(Clone, Default)]
pub struct Plan {
    pub version: u32,
    pub flags: u32,
    /// None for major 4.
    pub rd11: Option<[u32; 8]>,
    pub creator: Vec<u8>,
    pub bindings: Vec<Binding>,
    pub buffers: Vec<Buffer>,
    /// Arrays of variables; two buffers may use the same one.
    pub arrays: Vec<Vec<Variable>>,
    pub types: Vec<Type>,
}

#[derive(Clone, Default)]
pub struct Binding {
    pub name: Vec<u8>,
    /// Input type, return type, dimension, samples, point, count, flags, space, id.
    pub words: [u32; 9],
}

#[derive(Clone, Default)]
pub struct Buffer {
    pub name: Vec<u8>,
    /// Which array, its first variable for this buffer, and how many.
    pub array: usize,
    pub first: usize,
    pub count: usize,
    /// Size, flags, type.
    pub words: [u32; 3],
}

#[derive(Clone, Default)]
pub struct Variable {
    pub name: Vec<u8>,
    pub offset: u32,
    pub size: u32,
    pub flags: u32,
    pub of: usize,
    pub value: Value,
    pub slots: [u32; 4],
}

/// Where a variable's default comes from.
#[derive(Clone, Default)]
pub enum Value {
    /// Offset 0.
    #[default]
    None,
    /// Bytes of its own, as many as the variable's size; none at all is a default of length 0.
    Bytes(Vec<u8>),
    /// Over whatever lies there.
    Anywhere,
    /// Its last byte is the chunk's.
    AtEnd,
}

#[derive(Clone, Default)]
pub struct Type {
    /// Class, variable type, rows, columns, elements.
    pub halves: [u16; 5],
    pub members: Vec<Member>,
    pub extra: [u32; 4],
    /// Only laid out in major 5; None is offset 0.
    pub name: Option<Vec<u8>>,
}

#[derive(Clone, Default)]
pub struct Member {
    pub name: Vec<u8>,
    pub of: usize,
    pub offset: u32,
}

impl Plan {
    /// An empty reflection of a major version.
    pub fn empty(major: u32) -> Plan {
        Plan { version: major << 8, rd11: (major == 5).then(|| rd11(RD11, 32, 0)), ..Plan::default() }
    }

    /// How many nodes a walk from each type meets, where members only point to earlier types.
    pub fn nodes(&self) -> Vec<usize> {
        let mut nodes: Vec<usize> = Vec::new();
        for kind in &self.types {
            let below = |member: &Member| nodes.get(member.of).copied().unwrap_or(0);
            nodes.push(kind.members.iter().map(below).sum::<usize>() + 1);
        }
        nodes
    }
}

/// A small plan of either major. It reads, but for one in some hundreds that has a ring.
pub fn random(rng: &mut Rng) -> Plan {
    let mut plan = Plan::empty(rng.pick(&[4, 5]));
    plan.version |= rng.pick_or_word(&[0, 1, 0xffff_0000, 0xfffe_0000]) & 0xffff_00ff;
    plan.flags = rng.pick_or_word(&[0, 0x100]);
    plan.creator = if rng.one_in(4) { name(rng) } else { identifier(rng, 1, 16) };
    if let Some(words) = &mut plan.rd11 {
        *words = rd11(rng.pick(&[RD11, SM5_1]), rng.pick(&[32, 40]), rng.pick(&[0, 1, 0xffff_ffff]));
    }
    plan.bindings = (0..rng.pick(&[0, 0, 1, 1, 2, 2, 3, 5])).map(|_| binding(rng)).collect();
    for index in 0..rng.between(1, 5) {
        let kind = a_type(rng, index);
        plan.types.push(kind);
    }
    let nodes = plan.nodes();
    for _ in 0..rng.pick(&[0, 1, 1, 1, 1, 2, 2, 3]) {
        buffer(rng, &mut plan, &nodes);
    }
    if rng.one_in(250) {
        let (from, to) = (rng.below(plan.types.len()), rng.below(plan.types.len()));
        plan.types[from].members.push(Member { of: to, ..Member::default() });
    }
    plan
}

fn binding(rng: &mut Rng) -> Binding {
    let mut words = [0; 9];
    words[0] = rng.between(0, 13) as u32;
    words[1] = rng.pick_or_word(&[0, 1, 5]);
    words[2] = rng.between(0, 11) as u32;
    words[3] = rng.pick(&[0, 0xffff_ffff, 4]);
    words[4] = rng.pick_or_word(&[0, 1, 7]);
    words[5] = rng.pick(&[1, 1, 4, 0]);
    words[6] = rng.between(0, 0x1f) as u32;
    words[7] = rng.pick_or_word(&[0, 1]);
    words[8] = rng.pick_or_word(&[0, 3]);
    Binding { name: name(rng), words }
}

fn a_type(rng: &mut Rng, index: usize) -> Type {
    let members = if index > 0 && rng.one_in(2) { rng.between(1, 3) } else { 0 };
    let class = if members > 0 { 5 } else { rng.pick(&[0, 1, 2, 3, 4, 5, 6, 7]) };
    let variable_type = if members > 0 { 0 } else { rng.pick(&[0, 1, 2, 3, 3, 3, 5, 19, 39]) };
    let mut kind = Type {
        halves: [class, variable_type, rng.between(0, 4) as u16, rng.between(0, 4) as u16, rng.pick(&[0, 0, 0, 3, 10])],
        members: Vec::new(),
        extra: if rng.one_in(3) { std::array::from_fn(|_| rng.word()) } else { [0; 4] },
        name: rng.one_in(2).then(|| name(rng)),
    };
    if rng.one_in(12) {
        kind.halves = std::array::from_fn(|_| rng.word() as u16);
    }
    // Twice the same type side by side is as likely as not.
    let favoured = rng.below(index.max(1));
    for _ in 0..members {
        let of = if rng.one_in(2) { favoured } else { rng.below(index) };
        kind.members.push(Member { name: name(rng), of, offset: rng.pick_or_word(&[0, 4, 16]) });
    }
    kind
}

/// A buffer, mostly with an array of its own, else with a part of an earlier one.
fn buffer(rng: &mut Rng, plan: &mut Plan, nodes: &[usize]) {
    let words = [rng.pick_or_word(&[0, 16, 64]), rng.pick_or_word(&[0, 0, 1]), rng.pick_or_word(&[0, 0, 0, 1, 2, 3])];
    if !plan.arrays.is_empty() && rng.one_in(5) {
        let array = rng.below(plan.arrays.len());
        let first = rng.below(plan.arrays[array].len() + 1);
        let count = rng.between(0, plan.arrays[array].len() - first);
        plan.buffers.push(Buffer { name: name(rng), array, first, count, words });
        return;
    }
    let variables: Vec<Variable> = (0..rng.pick(&[0, 1, 1, 2, 2, 3])).map(|_| variable(rng, nodes)).collect();
    let (array, count) = (plan.arrays.len(), variables.len());
    plan.buffers.push(Buffer { name: name(rng), array, first: 0, count, words });
    plan.arrays.push(variables);
}

fn variable(rng: &mut Rng, nodes: &[usize]) -> Variable {
    let of = rng.below(nodes.len());
    let size = rng.pick(&[0, 1, 4, 4, 4, 8, 12, 16, 17]) as u32;
    let (value, size) = match rng.below(8) {
        0 | 1 => (Value::Bytes((0..size).map(|_| rng.byte()).collect()), size),
        2 => (Value::Bytes(vec![0; size as usize]), size),
        3 => (if rng.one_in(2) { Value::Anywhere } else { Value::AtEnd }, size),
        4 => (Value::None, rng.word()),
        _ => (Value::None, size),
    };
    Variable {
        name: name(rng),
        offset: rng.pick_or_word(&[0, 4, 16]),
        size,
        flags: rng.pick_or_word(&[0, 1, 2, 3]),
        // Small walks keep the stored cases small.
        of: if nodes[of] > 14 { 0 } else { of },
        value,
        slots: [
            rng.pick_or_word(&[0xffff_ffff, 0]),
            rng.pick(&[0, 1]),
            rng.pick_or_word(&[0xffff_ffff, 0]),
            rng.pick(&[0, 2]),
        ],
    }
}

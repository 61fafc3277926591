//! Chunks to compare readers on: fixed ones with known numbers, and an endless seeded stream.

pub mod boundaries;
pub mod chains;
pub mod damage;
pub mod examples;
pub mod fixed;
pub mod headers;
pub mod layout;
pub mod limits;
pub mod orders;
pub mod plan;
pub mod rng;
pub mod samples;
pub mod texts;
pub mod timed;

use self::chains::End;
use self::fixed::{blank, plain, put, Fixed};
use self::layout::{lay, Style};
use self::plan::{Buffer, Member, Plan, Type, Variable};
use self::rng::Rng;

/// All chunks with a number known from document 01, the samples among them.
pub fn fixed_chunks() -> Vec<Fixed> {
    [
        examples::refusals(),
        examples::readings(),
        samples::all(),
        headers::cases(),
        boundaries::cases(),
        chains::cases(),
        limits::cases(),
        orders::cases(),
    ]
    .concat()
}

/// Where a generated chunk comes from.
#[derive(Clone, Copy, PartialEq, Eq, Debug)]
pub enum Kind {
    /// Laid out from a random plan, undamaged.
    Structured,
    /// The same with words of known meaning changed.
    Aimed,
    /// A structured or fixed chunk with bytes flipped, cut, added or overwritten.
    Blunt,
    /// A structured chunk one of whose texts is likely ill formed or has lost its NUL.
    Text,
    /// Little more than a header.
    Tiny,
    /// A good chunk of major 5 with one RD11 word changed.
    Rd11,
    /// Chains of types around the greatest depth, and rings.
    Deep,
    /// Walks that branch, around the limit of type nodes.
    Branching,
    /// Buffers that share an array, around the limits of buffers and variables.
    Crowded,
    /// Around the greatest length of a chunk.
    Long,
}

/// The kinds and how many of 1,000 chunks are of each.
pub const KINDS: [(Kind, usize); 10] = [
    (Kind::Structured, 345),
    (Kind::Aimed, 340),
    (Kind::Blunt, 120),
    (Kind::Text, 90),
    (Kind::Tiny, 60),
    (Kind::Rd11, 20),
    (Kind::Deep, 10),
    (Kind::Branching, 10),
    (Kind::Crowded, 4),
    (Kind::Long, 1),
];

/// The stream of chunks: the `number`-th under a seed is always the same.
pub struct Generator {
    seed: u64,
    /// Small chunks that damage can start from.
    stock: Vec<Vec<u8>>,
}

impl Generator {
    pub fn new(seed: u64) -> Generator {
        let small = fixed_chunks().into_iter().filter(|fixed| fixed.bytes.len() <= 2_048);
        Generator { seed, stock: small.map(|fixed| fixed.bytes).collect() }
    }

    pub fn chunk(&self, number: u64) -> (Kind, Vec<u8>) {
        let mut rng = Rng::new(self.seed, number);
        let mut turn = rng.below(1_000);
        let mut chosen = Kind::Structured;
        for (kind, share) in KINDS {
            if turn < share {
                chosen = kind;
                break;
            }
            turn -= share;
        }
        (chosen, self.of_kind(chosen, &mut rng))
    }

    pub fn of_kind(&self, kind: Kind, rng: &mut Rng) -> Vec<u8> {
        match kind {
            Kind::Structured => structured(rng),
            Kind::Aimed => {
                let mut laid = lay(&plan::random(rng), Style::random(rng), rng);
                damage::aimed(&mut laid, rng);
                laid.bytes
            }
            Kind::Blunt => {
                let mut bytes =
                    if rng.one_in(2) { structured(rng) } else { self.stock[rng.below(self.stock.len())].clone() };
                damage::blunt(&mut bytes, rng);
                bytes
            }
            Kind::Text => text(rng),
            Kind::Tiny => tiny(rng),
            Kind::Rd11 => rd11(rng),
            Kind::Deep => deep(rng),
            Kind::Branching => branching(rng),
            Kind::Crowded => crowded(rng),
            Kind::Long => long(rng),
        }
    }
}

fn structured(rng: &mut Rng) -> Vec<u8> {
    let mut laid = lay(&plan::random(rng), Style::random(rng), rng);
    if rng.one_in(4) {
        damage::stray_names(&mut laid, rng);
    }
    laid.bytes
}

fn text(rng: &mut Rng) -> Vec<u8> {
    let mut plan = plan::random(rng);
    let doubtful = texts::doubtful(rng);
    let mut texts = vec![&mut plan.creator];
    texts.extend(plan.bindings.iter_mut().map(|binding| &mut binding.name));
    texts.extend(plan.buffers.iter_mut().map(|buffer| &mut buffer.name));
    texts.extend(plan.arrays.iter_mut().flatten().map(|variable| &mut variable.name));
    for kind in &mut plan.types {
        texts.extend(kind.members.iter_mut().map(|member| &mut member.name));
        texts.extend(kind.name.as_mut());
    }
    let chosen = rng.below(texts.len());
    *texts[chosen] = doubtful;
    let mut bytes = lay(&plan, Style { shuffled: rng.one_in(4), ..Style::random(rng) }, rng).bytes;
    // Unshuffled, texts stand last but for the defaults: now and then the last NUL is cut off.
    if rng.one_in(4) {
        while bytes.last().is_some_and(|&last| last == 0) {
            bytes.pop();
        }
    }
    bytes
}

fn tiny(rng: &mut Rng) -> Vec<u8> {
    let mut bytes =
        blank(rng.pick(&[4, 4, 5, 5, 5, 3, 6]), rng.pick(&[26, 27, 28, 29, 36, 52, 59, 60, 61, 70, 92, 100]));
    let last = rng.pick(&[28, 60]);
    for at in (0..last).step_by(4) {
        if at + 4 <= bytes.len() && rng.one_in(8) {
            let length = bytes.len() as u32;
            put(&mut bytes, at, rng.pick_or_word(&[0, 1, 2, 24, 28, 60, length - 1, length, 0x400, 0x500]));
        }
    }
    if bytes.len() > 28 && rng.one_in(2) {
        let at = rng.between(28, bytes.len() - 1);
        bytes[at] = rng.byte();
    }
    bytes
}

fn rd11(rng: &mut Rng) -> Vec<u8> {
    let mut plan = plan::random(rng);
    let mut words = plan::rd11(rng.pick(&[plan::RD11, plan::SM5_1]), rng.pick(&[32, 40]), rng.word());
    let index = rng.below(8);
    words[index] = rng.pick_or_word(&[0, words[index] ^ 1, words[index] + 4, 32, 40, 24, 60, plan::RD11, plan::SM5_1]);
    plan.version = plan.version & 0xffff_00ff | 0x500;
    plan.rd11 = Some(words);
    lay(&plan, Style::random(rng), rng).bytes
}

fn deep(rng: &mut Rng) -> Vec<u8> {
    let length = if rng.one_in(2) { rng.between(62, 68) } else { rng.between(1, 70) };
    let end = match rng.below(4) {
        0 | 1 => End::Leaf,
        2 => End::Ring(rng.below(length)),
        _ => End::Wild,
    };
    let major = rng.pick(&[4, 5]);
    if rng.one_in(3) {
        return chains::chain(major, length, end);
    }
    let mut plan = chains::plan(major, length, end);
    // Some more variables that enter the chain further down, and some more members.
    for _ in 0..rng.below(3) {
        plan.arrays[0].insert(0, Variable { of: rng.below(length), ..Variable::default() });
        plan.buffers[0].count += 1;
    }
    if rng.one_in(3) {
        let extra = Member { name: b"x".to_vec(), of: rng.below(length), offset: 4 };
        plan.types[rng.below(length)].members.push(extra);
    }
    lay(&plan, Style { shuffled: rng.one_in(2), ..Style::PLAIN }, rng).bytes
}

fn branching(rng: &mut Rng) -> Vec<u8> {
    let mut plan = Plan::empty(rng.pick(&[4, 5]));
    plan.types = limits::doubling(rng.pick(&[2, 3, 5, 8, 11, 12, 12, 13, 14, 30, 65, 66]));
    for _ in 0..rng.below(3) {
        let at = rng.below(plan.types.len());
        let extra = Member { of: rng.below(at + 1), ..Member::default() };
        if extra.of < at || rng.one_in(8) {
            plan.types[at].members.push(extra);
        }
    }
    let count = rng.between(1, 3);
    let last = plan.types.len() - 1;
    plan.arrays =
        vec![(0..count).map(|_| Variable { of: last - rng.below(last.min(2) + 1), ..Variable::default() }).collect()];
    plan.buffers = vec![Buffer { count, ..Buffer::default() }];
    lay(&plan, Style { shuffled: rng.one_in(2), ..Style::PLAIN }, rng).bytes
}

fn crowded(rng: &mut Rng) -> Vec<u8> {
    let mut plan = Plan::empty(rng.pick(&[4, 5]));
    plan.types = vec![Type { halves: [0, 3, 1, 1, 0], ..Type::default() }];
    if rng.one_in(3) {
        plan.types.push(Type { members: vec![Member::default(); rng.between(1, 3)], ..Type::default() });
    }
    let buffers = rng.pick(&[8, 16, 32, 63, 64, 64, 65]);
    let most = 2_048 / buffers + rng.below(3);
    let of = plan.types.len() - 1;
    plan.arrays = vec![vec![Variable { of, ..Variable::default() }; most]];
    let count = |rng: &mut Rng| if rng.one_in(10) { rng.below(most) } else { most };
    plan.buffers = (0..buffers).map(|_| Buffer { count: count(rng), ..Buffer::default() }).collect();
    let mut laid = plain(&plan);
    if rng.one_in(3) {
        damage::aimed(&mut laid, rng);
    }
    laid.bytes
}

fn long(rng: &mut Rng) -> Vec<u8> {
    let mut bytes = structured(rng);
    bytes.resize(rng.pick(&[65_535, 65_536, 65_536, 65_537, 65_538, 70_000]), rng.pick(&[0, 0xab]));
    bytes
}

//! Each boundary of records, codes, texts and defaults just inside and just outside, with its number.

use super::fixed::{plain, Fixed};
use super::layout::{Field, Laid};
use super::plan::{rd11, Binding, Buffer, Member, Plan, Type, Value, Variable, RD11};
use super::texts::edges;

pub fn cases() -> Vec<Fixed> {
    [codes(), records(), defaults(), names(), unread(), utf8()].concat()
}

/// One of each: binding, buffer, variable with a default, struct with one member, its leaf.
pub fn one_of_each(major: u32, stride: u32) -> Laid {
    let mut plan = Plan::empty(major);
    if major == 5 {
        plan.rd11 = Some(rd11(RD11, stride, 0));
    }
    plan.creator = b"c".to_vec();
    plan.bindings = vec![Binding { name: b"bind".to_vec(), words: [2, 5, 4, 9, 1, 1, 0xc, 6, 7] }];
    plan.types = vec![
        Type { halves: [0, 3, 1, 1, 0], name: Some(b"float".to_vec()), ..Type::default() },
        Type { halves: [5, 0, 1, 1, 0], name: Some(b"S".to_vec()), extra: [1, 2, 3, 4], ..Type::default() },
    ];
    plan.types[1].members = vec![Member { name: b"mem".to_vec(), of: 0, offset: 8 }];
    let value = Value::Bytes(vec![1, 2, 3, 4]);
    plan.arrays = vec![vec![Variable {
        name: b"var".to_vec(),
        offset: 16,
        flags: 2,
        of: 1,
        value,
        slots: [8, 9, 10, 11],
        ..Variable::default()
    }]];
    plan.buffers = vec![Buffer { name: b"buf".to_vec(), count: 1, words: [16, 1, 0], ..Buffer::default() }];
    plain(&plan)
}

/// Major and binding stride of the three layouts there are.
pub const LAYOUTS: [(u32, u32); 3] = [(4, 32), (5, 32), (5, 40)];

/// Input types, dimensions and flags around their ends, and with only high bits set.
fn codes() -> Vec<Fixed> {
    let mut cases = Vec::new();
    let high = [0xff, 0x100, 0xffff, 0x1_0000, 0x7fff_ffff, 0x8000_0000, 0xffff_ffff];
    for (major, stride) in LAYOUTS {
        for (field, last, number) in
            [(Field::InputType, 13, 8), (Field::Dimension, 11, 9), (Field::BindingFlags, 0x1f, 10)]
        {
            // Every code once, in major 4; the edges in each layout.
            let low = if major == 4 { 0 } else { last - 1 };
            for code in (low..=last + 2).chain(high) {
                let bytes = one_of_each(major, stride).set(field, 0, code).bytes;
                let number = if code <= last { 0 } else { number };
                cases.push(Fixed::new(format!("major {major}, stride {stride}, {field:?} {code:#x}"), bytes, number));
            }
        }
    }
    cases
}

/// Each record exactly at the end, one byte past it, and far out, where a sum of 32 bits would wrap.
fn records() -> Vec<Fixed> {
    let mut cases = Vec::new();
    for (major, stride) in LAYOUTS {
        let (variable, kind) = if major == 5 { (40, 36) } else { (24, 16) };
        let pointers = [
            (Field::BindingOffset, 0, stride as usize, Some((Field::BindingCount, 0, 1))),
            (Field::BufferOffset, 0, 24, Some((Field::BufferCount, 0, 1))),
            (Field::VariableOffset, 0, variable, Some((Field::VariableCount, 0, 1))),
            (Field::TypeOffset, 0, kind, None),
            (Field::MemberOffset, 1, 12, Some((Field::MemberCount, 1, 0x1_0000))),
            (Field::MemberType, 0, kind, None),
        ];
        for (field, turn, size, count) in pointers {
            let laid = one_of_each(major, stride);
            let start = laid.get(field, turn);
            let record = laid.bytes[start..start + size].to_vec();
            let name = |what: &str| format!("major {major}, stride {stride}, {field:?} {what}");
            // Records say where things are from the chunk's start, so a copy reads as well.
            let mut copy = laid.clone();
            copy.bytes.extend(&record);
            let end = copy.bytes.len();
            cases.push(Fixed::new(name("exactly at the end"), copy.clone().set(field, turn, end - size).bytes, 0));
            cases.push(Fixed::new(name("one byte past"), copy.clone().set(field, turn, end - size + 1).bytes, 7));
            let mut cut = copy.clone().set(field, turn, end - size);
            cut.bytes.pop();
            cases.push(Fixed::new(name("cut by a byte"), cut.bytes, 7));
            for wild in [end, end + 1, 0x7fff_ffff, 0x8000_0000, 0xffff_ffff, 0xffff_ffff - size + 1, 0xffff_fffc] {
                cases.push(Fixed::new(name(&format!("at {wild:#x}")), laid.clone().set(field, turn, wild).bytes, 7));
            }
            let Some((count, count_turn, one)) = count else { continue };
            let mut two = copy.clone();
            two.bytes.extend(&record);
            let two = two.set(count, count_turn, 2 * one);
            cases.push(Fixed::new(name("two, exactly at the end"), two.clone().set(field, turn, end - size).bytes, 0));
            let mut cut = two.clone().set(field, turn, end - size);
            cut.bytes.pop();
            cases.push(Fixed::new(name("two, the second cut by a byte"), cut.bytes, 7));
            cases.push(Fixed::new(name("two, the second past"), two.set(field, turn, end).bytes, 7));
            let endless = copy.set(count, count_turn, 0xffff_0000).set(field, turn, end - size);
            cases.push(Fixed::new(name("count 0xffff0000"), endless.bytes, 7));
        }
    }
    cases
}

fn defaults() -> Vec<Fixed> {
    let mut cases = Vec::new();
    for major in [4, 5] {
        let laid = one_of_each(major, 32);
        let end = laid.bytes.len();
        for (offset, size, number) in [
            (end - 4, 4, 0),
            (end - 3, 4, 12),
            (end - 1, 1, 0),
            (end - 1, 2, 12),
            (end, 0, 0),
            (end, 1, 12),
            (end + 1, 0, 12),
            (0, 0, 0),
            (0, end, 0),
            (0, 0xffff_ffff, 0),
            (1, end - 1, 0),
            (1, end, 12),
            (1, 0, 0),
            (1, 0xffff_ffff, 12),
            (4, 0xffff_fffc, 12),
            (0x7fff_ffff, 0x8000_0001, 12),
            (0x8000_0000, 0x8000_0000, 12),
            (0xffff_ffff, 0, 12),
            (0xffff_ffff, 1, 12),
            (0xffff_ffff, 0xffff_ffff, 12),
        ] {
            let bytes = laid.clone().set(Field::DefaultOffset, 0, offset).set(Field::VariableSize, 0, size).bytes;
            cases.push(Fixed::new(
                format!("major {major}, default at {offset:#x} of {size:#x} in {end:#x}"),
                bytes,
                number,
            ));
        }
    }
    cases
}

const NAMES: [(Field, usize); 5] = [
    (Field::BindingName, 0),
    (Field::BufferName, 0),
    (Field::VariableName, 0),
    (Field::MemberName, 0),
    (Field::TypeName, 1),
];

/// Each name at the end, past it, and without its NUL.
fn names() -> Vec<Fixed> {
    let mut cases = Vec::new();
    for (major, stride) in LAYOUTS {
        for (field, turn) in NAMES {
            if field == Field::TypeName && major == 4 {
                continue;
            }
            let name = |what: &str| format!("major {major}, stride {stride}, {field:?} {what}");
            let mut laid = one_of_each(major, stride);
            laid.bytes.extend(b"z\0");
            let end = laid.bytes.len();
            for (what, offset, number) in [
                ("last NUL", end - 1, 0),
                ("last letter", end - 2, 0),
                ("offset 0", 0, 0),
                ("offset 3", 3, 0),
                ("at the end", end, 11),
            ]
            .into_iter()
            .chain([
                ("past the end", end + 1, 11),
                ("far out", 0xffff_ffff, 11),
                ("half way out", 0x8000_0000, 11),
            ]) {
                cases.push(Fixed::new(name(what), laid.clone().set(field, turn, offset).bytes, number));
            }
            let mut open = laid.set(field, turn, end - 2);
            open.bytes[end - 1] = b'z';
            cases.push(Fixed::new(name("without NUL"), open.bytes, 11));
        }
    }
    cases
}

/// A count of 0 leaves its offset unread.
fn unread() -> Vec<Fixed> {
    let mut cases = Vec::new();
    for (major, stride) in LAYOUTS {
        for (count, offset, turn, one) in [
            (Field::BindingCount, Field::BindingOffset, 0, 1),
            (Field::BufferCount, Field::BufferOffset, 0, 1),
            (Field::VariableCount, Field::VariableOffset, 0, 1),
            (Field::MemberCount, Field::MemberOffset, 1, 0x1_0000),
        ] {
            for wild in [1, 0x7fff_ffff, 0xffff_ffff] {
                let laid = one_of_each(major, stride).set(offset, turn, wild).set(count, turn, 0);
                cases.push(Fixed::new(
                    format!("major {major}, stride {stride}, {count:?} 0, offset {wild:#x}"),
                    laid.bytes,
                    0,
                ));
            }
            let laid = one_of_each(major, stride).set(offset, turn, 0xffff_ffff).set(count, turn, one);
            cases.push(Fixed::new(
                format!("major {major}, stride {stride}, {count:?} one, offset wild"),
                laid.bytes,
                7,
            ));
        }
        // All elements and no member: the low half is no count.
        let laid =
            one_of_each(major, stride).set(Field::MemberCount, 1, 0xffff).set(Field::MemberOffset, 1, 0xffff_ffff);
        cases.push(Fixed::new(format!("major {major}, stride {stride}, 65,535 elements"), laid.bytes, 0));
    }
    cases
}

/// The edges of Unicode's table 3-7 as creator and, in turn, as each kind of name.
fn utf8() -> Vec<Fixed> {
    let mut cases = Vec::new();
    for (index, edge) in edges().into_iter().enumerate() {
        let good = std::str::from_utf8(&edge).is_ok();
        let (field, turn) = NAMES[index % NAMES.len()];
        for (field, turn, number) in [(Field::Creator, 0, 4), (field, turn, 11)] {
            let mut laid = one_of_each(5, 32);
            let end = laid.bytes.len();
            laid.bytes.extend(&edge);
            laid.bytes.push(0);
            cases.push(Fixed::new(
                format!("{field:?} {edge:x?}"),
                laid.set(field, turn, end).bytes,
                if good { 0 } else { number },
            ));
        }
    }
    cases
}

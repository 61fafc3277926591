//! Types one inside the other: how deep a walk may go, and where it meets itself.

use super::fixed::{plain, Fixed};
use super::layout::Field;
use super::plan::{Buffer, Member, Plan, Type, Variable};

/// What the last type of a chain holds.
#[derive(Clone, Copy)]
pub enum End {
    Leaf,
    /// A member whose type is that of this level again.
    Ring(usize),
    /// A member whose type lies outside the chunk.
    Wild,
}

/// One variable whose type is a chain of so many nested types.
pub fn plan(major: u32, length: usize, end: End) -> Plan {
    let mut plan = Plan::empty(major);
    for level in 0..length {
        let of = match end {
            _ if level + 1 < length => Some(level + 1),
            End::Leaf => None,
            End::Ring(back) => Some(back),
            End::Wild => Some(0),
        };
        let members = of.into_iter().map(|of| Member { name: b"m".to_vec(), of, offset: 0 }).collect();
        let halves = [if of.is_some() { 5 } else { 0 }, 3, 1, 1, 0];
        plan.types.push(Type { halves, members, ..Type::default() });
    }
    plan.arrays = vec![vec![Variable { name: b"v".to_vec(), size: 4, ..Variable::default() }]];
    plan.buffers = vec![Buffer { name: b"b".to_vec(), count: 1, ..Buffer::default() }];
    plan
}

pub fn chain(major: u32, length: usize, end: End) -> Vec<u8> {
    let mut laid = plain(&plan(major, length, end));
    if let End::Wild = end {
        let past = laid.bytes.len();
        laid = laid.set(Field::MemberType, length - 1, past);
    }
    laid.bytes
}

/// 65 nested types read and 66 do not; depth is tested before the path, the path before the range.
pub fn cases() -> Vec<Fixed> {
    let mut cases = Vec::new();
    for major in [4, 5] {
        let mut add = |name: &str, bytes: Vec<u8>, number| {
            cases.push(Fixed::new(format!("major {major}, {name}"), bytes, number))
        };
        for (length, number) in [(1, 0), (2, 0), (63, 0), (64, 0), (65, 0), (66, 13), (67, 13), (80, 13)] {
            add(&format!("{length} nested types"), chain(major, length, End::Leaf), number);
        }
        for (length, back, number) in [
            (1, 0, 14),
            (2, 0, 14),
            (2, 1, 14),
            (5, 2, 14),
            (64, 0, 14),
            (64, 63, 14),
            (65, 0, 13),
            (65, 64, 13),
            (66, 0, 13),
        ] {
            add(&format!("a ring of {length} types back to {back}"), chain(major, length, End::Ring(back)), number);
        }
        for (length, number) in [(1, 7), (64, 7), (65, 13)] {
            add(&format!("{length} types, then one outside"), chain(major, length, End::Wild), number);
        }
        // The same descriptors entered one level further down are one level less deep.
        let mut lower = plan(major, 66, End::Leaf);
        lower.arrays[0][0].of = 1;
        add("66 types entered at the second", plain(&lower).bytes, 0);
        // A path is of one variable: the same type in the next variable is no ring.
        let mut twice = plan(major, 3, End::Leaf);
        twice.arrays[0].push(Variable { of: 1, ..Variable::default() });
        twice.buffers[0].count = 2;
        add("one chain for two variables", plain(&twice).bytes, 0);
        // One descriptor twice side by side is no ring either.
        let mut beside = plan(major, 3, End::Leaf);
        for level in 0..2 {
            let again = beside.types[level].members[0].clone();
            beside.types[level].members.push(again);
        }
        add("one descriptor twice side by side", plain(&beside).bytes, 0);
        // The same with a third member that closes a ring after both.
        beside.types[1].members.push(Member { name: b"up".to_vec(), of: 0, offset: 0 });
        add("a ring behind two equal members", plain(&beside).bytes, 14);
    }
    cases
}

//! Chunks with two faults of different numbers: the first in document 01's walk order is reported.

use super::fixed::{blank, plain, put, Fixed};
use super::layout::{Field, Laid};
use super::plan::{rd11, Binding, Buffer, Member, Plan, Type, Variable, SM5_1};

/// A word that is made wrong: what it says, the how many-th of its kind, what it becomes, the number.
type Fault = (Field, usize, usize, u32);

/// Two bindings, two buffers of two and one variables, a struct of two members.
fn base(major: u32, stride: u32) -> Laid {
    let mut plan = Plan::empty(major);
    if major == 5 {
        plan.rd11 = Some(rd11(SM5_1, stride, 2));
    }
    plan.creator = b"c".to_vec();
    plan.bindings = (0..2).map(|_| Binding { name: b"t".to_vec(), words: [2, 5, 4, 0, 0, 1, 1, 0, 0] }).collect();
    let leaf = Type { halves: [0, 3, 1, 1, 0], name: Some(b"float".to_vec()), ..Type::default() };
    let member = |name: &[u8]| Member { name: name.to_vec(), of: 0, offset: 4 };
    let members = vec![member(b"m"), member(b"n")];
    let whole = Type { halves: [5, 0, 1, 1, 0], members, name: Some(b"S".to_vec()), ..Type::default() };
    plan.types = vec![leaf.clone(), whole, leaf];
    let variable = |of| Variable { name: b"v".to_vec(), size: 4, of, ..Variable::default() };
    plan.arrays = vec![vec![variable(1), variable(2)], vec![variable(2)]];
    plan.buffers = vec![
        Buffer { name: b"p".to_vec(), array: 0, count: 2, ..Buffer::default() },
        Buffer { name: b"q".to_vec(), array: 1, count: 1, ..Buffer::default() },
    ];
    plain(&plan)
}

/// All faults of one word that the base can have, in walk order.
fn faults(major: u32, laid: &Laid) -> Vec<Fault> {
    let end = laid.bytes.len();
    let own = laid.get(Field::TypeOffset, 0);
    let mut faults = vec![(Field::Version, 0, 0x600, 3), (Field::Creator, 0, end, 4)];
    if major == 5 {
        faults.push((Field::Rd11, 1, 61, 6));
    }
    faults.push((Field::BindingOffset, 0, end - 31, 7));
    for binding in 0..2 {
        faults.extend([
            (Field::InputType, binding, 14, 8),
            (Field::Dimension, binding, 12, 9),
            (Field::BindingFlags, binding, 0x20, 10),
            (Field::BindingName, binding, end, 11),
        ]);
    }
    faults.extend([
        (Field::BufferOffset, 0, end - 23, 7),
        (Field::VariableOffset, 0, end - 1, 7),
        // The first variable, with the struct.
        (Field::DefaultOffset, 0, end - 3, 12),
        (Field::VariableName, 0, end, 11),
        (Field::TypeOffset, 0, end - 1, 7),
        (Field::MemberOffset, 1, end - 11, 7),
        (Field::MemberName, 0, end + 1, 11),
        (Field::MemberType, 0, own, 14),
        (Field::MemberType, 0, end, 7),
    ]);
    if major == 5 {
        faults.push((Field::TypeName, 0, end, 11));
    }
    faults.extend([
        (Field::MemberName, 1, 0xffff_ffff, 11),
        (Field::MemberType, 1, own, 14),
        (Field::MemberType, 1, 0xffff_ffff, 7),
    ]);
    if major == 5 {
        faults.push((Field::TypeName, 1, end, 11));
    }
    faults.extend([
        // The second variable.
        (Field::DefaultOffset, 1, end, 12),
        (Field::VariableName, 1, end, 11),
        (Field::TypeOffset, 1, end, 7),
    ]);
    if major == 5 {
        faults.push((Field::TypeName, 2, end, 11));
    }
    faults.extend([
        (Field::BufferName, 0, end, 11),
        (Field::VariableOffset, 1, 0xffff_ffff, 7),
        (Field::DefaultOffset, 2, 0xffff_fffe, 12),
        (Field::VariableName, 2, end, 11),
        (Field::TypeOffset, 2, 0xffff_ffff, 7),
        (Field::BufferName, 1, end, 11),
    ]);
    faults
}

pub fn cases() -> Vec<Fixed> {
    let mut cases = early();
    for (major, stride) in [(4, 32), (5, 40)] {
        let laid = base(major, stride);
        cases.push(Fixed::new(format!("major {major}, no fault"), laid.bytes.clone(), 0));
        let faults = faults(major, &laid);
        for (index, first) in faults.iter().enumerate() {
            let name = format!("major {major}, {first:x?}");
            let once = laid.clone().set(first.0, first.1, first.2);
            cases.push(Fixed::new(name.clone(), once.bytes.clone(), first.3));
            for second in &faults[index + 1..] {
                if first.3 != second.3 && (first.0, first.1) != (second.0, second.1) {
                    let twice = once.clone().set(second.0, second.1, second.2);
                    cases.push(Fixed::new(format!("{name}, then {second:x?}"), twice.bytes, first.3));
                }
            }
        }
    }
    cases
}

/// The order of 1 to 6, which is not of one chunk's words alone.
fn early() -> Vec<Fixed> {
    let wrong = |major: u32, length: usize, words: &[(usize, u32)]| {
        let mut bytes = blank(major, length);
        for &(at, word) in words {
            put(&mut bytes, at, word);
        }
        bytes
    };
    vec![
        Fixed::new("1 before 3", wrong(6, 27, &[]), 1),
        Fixed::new("2 before 3", wrong(6, 65_537, &[]), 2).not_stored(),
        Fixed::new("2 before 4", wrong(4, 65_537, &[(24, 0xffff_ffff)]), 2).not_stored(),
        Fixed::new("3 before 4", wrong(6, 28, &[(24, 28)]), 3),
        Fixed::new("3 before 5", wrong(3, 59, &[]), 3),
        Fixed::new("4 before 5", wrong(5, 59, &[(24, 59)]), 4),
        Fixed::new("4 before 6", wrong(5, 60, &[(24, 60), (28, 0)]), 4),
        Fixed::new("4 before 7", wrong(4, 28, &[(24, 28), (8, 1)]), 4),
        Fixed::new("5 before 6", wrong(5, 59, &[(28, 0)]), 5),
        Fixed::new("5 before 7", wrong(5, 59, &[(8, 1), (12, 59)]), 5),
        Fixed::new("6 before 7", wrong(5, 60, &[(32, 0), (8, 1), (12, 60)]), 6),
        Fixed::new("bindings before buffers", wrong(4, 60, &[(0, 1), (4, 60), (8, 1), (12, 28), (32, 14)]), 8),
    ]
}

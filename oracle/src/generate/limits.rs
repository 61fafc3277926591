//! The limits of document 01: the last record that has room, the first that has none, and that room is
//! tested before the record is looked at. Arrays and types are shared, so most of these chunks are small.

use super::boundaries::LAYOUTS;
use super::fixed::{blank, plain, put, Fixed};
use super::layout::{Field, Laid};
use super::plan::{Buffer, Member, Plan, Type, Variable};

pub fn cases() -> Vec<Fixed> {
    [bindings(), buffers(), variables(), nodes()].concat()
}

/// So many bindings of zeros, in a chunk that has room for `held` of them.
fn zero_bindings(major: u32, stride: u32, count: u32, held: usize) -> Vec<u8> {
    let base = if major == 5 { 60 } else { 28 };
    let mut bytes = blank(major, base + held * stride as usize);
    put(&mut bytes, 8, count);
    put(&mut bytes, 12, base as u32);
    if major == 5 {
        put(&mut bytes, 28 + 12, stride);
    }
    bytes
}

fn bindings() -> Vec<Fixed> {
    let mut cases = Vec::new();
    for (major, stride) in LAYOUTS {
        let mut add = |name: &str, bytes: Vec<u8>, number, stored| {
            let case = Fixed::new(format!("major {major}, stride {stride}, {name}"), bytes, number);
            cases.push(if stored && major == 4 { case } else { case.not_stored() });
        };
        let mut last_type = zero_bindings(major, stride, 1_024, 1_024);
        add("1,024 bindings", last_type.clone(), 0, true);
        let end = last_type.len() - stride as usize;
        put(&mut last_type, end + 4, 14);
        add("1,024 bindings, the last of input type 14", last_type, 8, false);
        add("1,025 bindings", zero_bindings(major, stride, 1_025, 1_025), 15, false);
        add("1,025 bindings, the last past the end", zero_bindings(major, stride, 1_025, 1_024), 15, true);
        add("endless bindings", zero_bindings(major, stride, 0xffff_ffff, 1_024), 15, false);
        add("1,024 bindings, the last past the end", zero_bindings(major, stride, 1_024, 1_023), 7, false);
        cases.push(Fixed::new(
            format!("major {major}, stride {stride}, endless bindings, two held"),
            zero_bindings(major, stride, 0xffff_ffff, 2),
            7,
        ));
    }
    cases
}

fn buffers() -> Vec<Fixed> {
    let mut cases = Vec::new();
    for major in [4, 5] {
        let base: usize = if major == 5 { 60 } else { 28 };
        for (count, held, number) in
            [(1, 1, 0), (63, 63, 0), (64, 64, 0), (65, 65, 15), (65, 64, 15), (64, 63, 7), (127, 64, 15)]
        {
            let mut bytes = blank(major, base + 24 * held);
            put(&mut bytes, 0, count);
            put(&mut bytes, 4, base as u32);
            cases.push(Fixed::new(format!("major {major}, {count} buffers, {held} held"), bytes, number));
        }
    }
    cases
}

/// Buffers that all use the start of one array of variables, each of this type.
fn shared_array(major: u32, counts: &[usize], types: Vec<Type>) -> Laid {
    let mut plan = Plan::empty(major);
    let longest = counts.iter().copied().max().unwrap_or(0);
    plan.arrays = vec![vec![Variable { name: b"v".to_vec(), of: types.len() - 1, ..Variable::default() }; longest]];
    plan.types = types;
    plan.buffers = counts.iter().map(|&count| Buffer { name: b"b".to_vec(), count, ..Buffer::default() }).collect();
    plain(&plan)
}

fn leaf() -> Vec<Type> {
    vec![Type { halves: [0, 3, 1, 1, 0], ..Type::default() }]
}

fn variables() -> Vec<Fixed> {
    let mut cases = Vec::new();
    let mut add = |name: &str, laid: Laid, number, stored| {
        let case = Fixed::new(name, laid.bytes, number);
        cases.push(if stored { case } else { case.not_stored() });
    };
    add("2,048 variables in one buffer", shared_array(4, &[2_048], leaf()), 0, false);
    add("2,049 variables in one buffer", shared_array(4, &[2_049], leaf()), 15, false);
    for major in [4, 5] {
        let name = |what: &str| format!("major {major}, {what}");
        add(&name("1,024 and 1,024 variables"), shared_array(major, &[1_024, 1_024], leaf()), 0, major == 4);
        add(&name("1,024 and 1,025 variables"), shared_array(major, &[1_024, 1_025], leaf()), 15, major == 4);
        add(&name("64 buffers of 32 variables"), shared_array(major, &[32; 64], leaf()), 0, false);
        let mut counts = [32; 64];
        counts[63] = 33;
        add(&name("63 buffers of 32 variables, one of 33"), shared_array(major, &counts, leaf()), 15, true);
        // All 2,048 taken, then a record outside: room is tested first. One less, and the record is.
        let mut counts = [64; 33];
        counts[32] = 1;
        let full = shared_array(major, &counts, leaf()).set(Field::VariableOffset, 32, 0xffff_ffff);
        add(&name("a variable outside where there is no room"), full.clone(), 15, true);
        add(&name("a variable outside where there is room for one"), full.set(Field::VariableCount, 31, 63), 7, true);
        let two = [leaf(), vec![struct_of(&[0])]].concat();
        add(&name("2,048 variables of 2 nodes"), shared_array(major, &[32; 64], two), 0, false);
    }
    cases
}

fn struct_of(members: &[usize]) -> Type {
    let member = |&of: &usize| Member { name: b"m".to_vec(), of, offset: 0 };
    Type { halves: [5, 0, 1, 1, 0], members: members.iter().map(member).collect(), ..Type::default() }
}

/// One buffer with a variable for each of these types.
fn variables_of(major: u32, types: Vec<Type>, roots: &[usize]) -> Laid {
    let mut plan = Plan::empty(major);
    plan.types = types;
    plan.arrays = vec![roots.iter().map(|&of| Variable { name: b"v".to_vec(), of, ..Variable::default() }).collect()];
    plan.buffers = vec![Buffer { name: b"b".to_vec(), count: roots.len(), ..Buffer::default() }];
    plain(&plan)
}

/// Types whose last has `outer` members, each a struct of 64 leaves: 1 + 65 * outer nodes.
fn tree(outer: usize) -> Vec<Type> {
    [leaf(), vec![struct_of(&[0; 64]), struct_of(&vec![1; outer])]].concat()
}

/// Types each of which has the one before twice: 2^levels - 1 nodes.
pub fn doubling(levels: usize) -> Vec<Type> {
    [leaf(), (1..levels).map(|level| struct_of(&[level - 1, level - 1])).collect()].concat()
}

fn nodes() -> Vec<Fixed> {
    let mut cases = Vec::new();
    for major in [4, 5] {
        let mut add = |name: &str, laid: Laid, number, stored| {
            let case = Fixed::new(format!("major {major}, {name}"), laid.bytes, number);
            cases.push(if stored { case } else { case.not_stored() });
        };
        add("4,096 nodes", variables_of(major, tree(63), &[2]), 0, major == 4);
        add("4,097 nodes", variables_of(major, tree(63), &[2, 0]), 15, true);
        add(
            "a type outside where there is no room",
            variables_of(major, tree(63), &[2, 0]).set(Field::TypeOffset, 1, 0xffff_ffff),
            15,
            true,
        );
        add("4,095 nodes by doubling, and one", variables_of(major, doubling(12), &[11, 0]), 0, false);
        add("4,095 nodes by doubling, and two", variables_of(major, doubling(12), &[11, 0, 0]), 15, true);
        add(
            "a type outside where there is room for one",
            variables_of(major, doubling(12), &[11, 0]).set(Field::TypeOffset, 1, 0xffff_ffff),
            7,
            true,
        );
        for levels in [13, 20, 64, 65] {
            add(
                &format!("doubling over {levels} levels"),
                variables_of(major, doubling(levels), &[levels - 1]),
                15,
                true,
            );
        }
        add("doubling over 66 levels", variables_of(major, doubling(66), &[65]), 13, true);

        // Members of one struct, more than a byte counts; then as many as there is room for.
        for (members, number) in [(257, 0), (4_095, 0), (4_096, 15)] {
            let types = [leaf(), vec![struct_of(&vec![0; members])]].concat();
            add(&format!("a struct of {members} members"), variables_of(major, types, &[1]), number, members == 257);
        }

        // The last node is a struct: its member is on the path, then outside the chunk.
        let ring = [doubling(12), vec![struct_of(&[12])]].concat();
        let full = variables_of(major, ring, &[11, 12]);
        add("a ring where there is no room", full.clone(), 14, true);
        let last = full.fields.iter().filter(|found| found.0 == Field::MemberType).count() - 1;
        add("a member's type outside where there is no room", full.set(Field::MemberType, last, 0xffff_ffff), 15, true);

        // 4,031 nodes and a chain: its 65th level takes the last room.
        for (length, number) in [(65, 0), (66, 13)] {
            let mut types = tree(62);
            types.extend((0..length).map(|level| if level == 0 { leaf().remove(0) } else { struct_of(&[level + 2]) }));
            let root = types.len() - 1;
            add(
                &format!("4,031 nodes and a chain of {length}"),
                variables_of(major, types, &[2, root]),
                number,
                number != 0,
            );
        }
    }
    cases
}

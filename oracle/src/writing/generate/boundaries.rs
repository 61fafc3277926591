//! Each part of document 01's list just inside and just outside, on a reflection that has something of all.

use super::fields::What;
use crate::generate::chains::{self, End};
use crate::generate::fixed::plain;
use crate::generate::plan::{self, Binding, Buffer, Member, Plan, Type, Value, Variable};
use crate::model;
use crate::tables::{Rooms, LIMITS, TYPE_WORDS, WIDTHS};
use crate::writing::readable::Clause;
use crate::writing::{Held, LONGEST};

/// A reflection with a name, and the part of the list that it breaks.
pub type Boundary = (String, Held, Option<Clause>);

/// Major 4, major 5 with stride 32, and with stride 40.
pub fn bases() -> [Held; 3] {
    [rich(4, 32), rich(5, 32), rich(5, 40)]
}

/// Two bindings, two buffers, a struct that holds another, an array, defaults and names of all kinds.
fn rich(major: u32, stride: u32) -> Held {
    let mut plan = Plan::empty(major);
    plan.rd11 = (major == 5).then(|| plan::rd11(plan::SM5_1, stride, 1));
    plan.creator = b"compiler".to_vec();
    let binding =
        |name: &[u8], first: u32| Binding { name: name.to_vec(), words: [first, 5, 4, 0xffff_ffff, 1, 1, 0xc, 2, 3] };
    plan.bindings = vec![binding(b"smp", 3), binding("für".as_bytes(), 2)];
    let leaf = Type { halves: [1, 3, 1, 4, 0], name: Some(b"float4".to_vec()), ..Type::default() };
    let array = Type { halves: [0, 19, 1, 1, 10], extra: [1, 2, 3, 4], ..Type::default() };
    let member = |name: &[u8], of: usize, offset: u32| Member { name: name.to_vec(), of, offset };
    let inner =
        Type { halves: [5, 0, 1, 8, 0], members: vec![member(b"x", 0, 0), member(b"y", 1, 16)], ..leaf.clone() };
    let outer = Type {
        halves: [5, 0, 1, 20, 0],
        members: vec![member(b"in", 2, 0), member(b"fade", 0, 64), member(b"in2", 2, 80)],
        name: Some(b"Line".to_vec()),
        ..Type::default()
    };
    plan.types = vec![leaf, array, inner, outer];
    let variable = |name: &[u8], of: usize, value: Value| Variable {
        name: name.to_vec(),
        size: 4,
        flags: 2,
        of,
        value,
        slots: [0xffff_ffff, 0, 0xffff_ffff, 0],
        ..Variable::default()
    };
    let bytes = |bytes: &[u8]| Value::Bytes(bytes.to_vec());
    plan.arrays = vec![
        vec![variable(b"fade", 0, bytes(&[1, 2, 3, 4])), variable(b"line", 3, Value::None)],
        vec![variable(b"k", 1, bytes(&[1, 2, 3, 4])), variable(b"smp", 0, bytes(&[1, 2, 3, 5]))],
    ];
    let buffer = |name: &[u8], array: usize, kind: u32| Buffer {
        name: name.to_vec(),
        array,
        first: 0,
        count: 2,
        words: [16, 0, kind],
    };
    plan.buffers = vec![buffer(b"$Globals", 0, 0), buffer(b"fade", 1, 1)];
    let chunk = plain(&plan).bytes;
    let words = model::read(&chunk, &Rooms::FULL).expect("the model reads it");
    let mut held = Held::read(&chunk, words);
    held.edits = b"some edits".to_vec();
    held
}

pub fn all() -> Vec<Boundary> {
    let mut all: Vec<Boundary> = Vec::new();
    for base in bases() {
        [texts(&base), headers(&base), records(&base), counts(&base)].into_iter().for_each(|some| all.extend(some));
    }
    all.extend(depths());
    all.extend(rooms());
    all
}

/// The reflection with some change.
fn with(base: &Held, name: String, clause: Option<Clause>, change: impl FnOnce(&mut Held)) -> Boundary {
    let mut held = base.clone();
    change(&mut held);
    let [major, stride] = [base.words.header[0] >> 8, base.words.header[6]];
    (format!("major {major}, stride {stride}, {name}"), held, clause)
}

fn texts(base: &Held) -> Vec<Boundary> {
    let mut cases = Vec::new();
    let mut add = |name: &str, clause, change: &dyn Fn(&mut Held)| {
        cases.push(with(base, name.to_string(), clause, change));
    };
    for (length, clause) in [(LONGEST, None), (LONGEST + 1, Some(Clause::Buffers))] {
        add(&format!("a chunk of {length} bytes"), clause, &|held| held.chunk.resize(length, 0));
        add(&format!("edits of {length} bytes"), clause, &|held| held.edits.resize(length, b'a'));
    }
    add("no chunk", Some(Clause::Places), &|held| held.chunk.clear());
    let [chunk, edits] = [base.chunk.len() as u32, base.edits.len() as u32];
    let mut fields = base.fields();
    fields.dedup_by_key(|field| field.what);
    for field in fields {
        let what = field.what;
        let mut put = |text: [u32; 3], clause| {
            let name = format!("{what:?} at {text:?}");
            add(&name, clause, &|held| held.set(field, text));
        };
        for (source, length) in [(0, chunk), (1, edits)] {
            put([source, length, 0], None);
            put([source, 0, 0], None);
            put([source, length + 1, 0], Some(Clause::Places));
            put([source, 0xffff_ffff, 0], Some(Clause::Places));
        }
        put([2, 0, 0], Some(Clause::Places));
        put([0xffff_ffff, 0, 0], Some(Clause::Places));
        if what == What::Type && !base.is_major_5() {
            put([1, 0, 1], Some(Clause::Major4));
            continue;
        }
        let good = (what == What::Default).then_some(Clause::Default);
        put([1, edits - 1, 1], good);
        put([1, 0, edits], good);
        put([1, edits, 1], Some(Clause::Places));
        put([1, 1, edits], Some(Clause::Places));
        put([1, 1, 0xffff_ffff], Some(Clause::Places));
        put([1, 0xffff_ffff, 1], Some(Clause::Places));
        put([1, 0xffff_ffff, 5], Some(Clause::Places));
        for bytes in [&b"\0"[..], b"a\0", b"\x80", b"a\xc2", b"\xed\xa0\x80", b"\xf4\x90\x80\x80", b"\xc3\xa9", b"\x7f"]
        {
            let bad = !bytes.is_ascii() && std::str::from_utf8(bytes).is_err() || bytes.contains(&0);
            // A default may be any bytes, if only they are four here.
            let clause = match what {
                What::Default => good.filter(|_| bytes.len() != 4),
                _ => bad.then_some(Clause::Names),
            };
            add(&format!("{what:?} of bytes {bytes:x?}"), clause, &|held| {
                held.edits = bytes.to_vec();
                held.set(field, [1, 0, bytes.len() as u32]);
            });
        }
    }
    cases
}

fn headers(base: &Held) -> Vec<Boundary> {
    let mut cases = Vec::new();
    let major_5 = base.is_major_5();
    let mut put = |field: usize, word: u32, clause| {
        cases.push(with(base, format!("header word {field} is {word:#x}"), clause, |held| {
            held.words.header[field] = word
        }));
    };
    for major in [0, 1, 3, 4, 5, 6, 255] {
        let clause = if major == 4 || major == 5 { Clause::Rd11 } else { Clause::Major };
        put(0, 0xffff_0012 | major << 8, (major != base.words.header[0] >> 8).then_some(clause));
    }
    put(1, 0xffff_ffff, None);
    for identifier in [0, plan::RD11, plan::SM5_1, plan::RD11 + 1, 0xffff_ffff] {
        let good = if major_5 { [plan::RD11, plan::SM5_1].contains(&identifier) } else { identifier == 0 };
        put(5, identifier, (!good).then_some(Clause::Rd11));
    }
    for stride in [0, 31, 33, 36, 39, 41, 44, 0x0001_0020, 0x0001_0028] {
        let good = !major_5 && stride == 0;
        put(6, stride, (!good).then_some(Clause::Rd11));
    }
    put(7, 0xffff_ffff, (!major_5).then_some(Clause::Rd11));
    if base.words.header[6] == 40 {
        // Bindings have a space and an id.
        put(6, 32, Some(Clause::Space));
    }
    cases
}

fn records(base: &Held) -> Vec<Boundary> {
    let mut cases = Vec::new();
    let major_5 = base.is_major_5();
    let mut put = |table: usize, field: usize, word: u32, clause| {
        let name = format!("word {field} of the last record of table {table} is {word:#x}");
        let at = (base.count(table) - 1) * WIDTHS[table] + field;
        cases.push(with(base, name, clause, |held| held.table_mut(table)[at] = word));
    };
    for (field, last) in [(3, 13), (5, 11), (9, 0x1f)] {
        put(0, field, last, None);
        put(0, field, last + 1, Some(Clause::Codes));
        put(0, field, 0xffff_ffff, Some(Clause::Codes));
    }
    for field in [4, 6, 7, 8] {
        put(0, field, 0xffff_ffff, None);
    }
    for field in [10, 11] {
        put(0, field, 1, (base.words.header[6] != 40).then_some(Clause::Space));
    }
    for field in [4, 5, 6] {
        put(1, field, 0xffff_ffff, None);
    }
    put(2, 3, 0xffff_ffff, None);
    put(2, 5, 0xffff_ffff, None);
    for size in [0, 3, 5, 0xffff_ffff] {
        put(2, 4, size, Some(Clause::Default));
    }
    for field in 9..13 {
        put(2, field, 1, (!major_5).then_some(Clause::Major4));
        put(3, field - 3, 1, (!major_5).then_some(Clause::Major4));
    }
    for field in 0..5 {
        put(3, field, 65_535, None);
        put(3, field, 65_536, Some(Clause::Halves));
        put(3, field, 0xffff_ffff, Some(Clause::Halves));
    }
    // The last node is a root.
    for field in 13..17 {
        put(3, field, 0xffff_ffff, None);
    }
    cases
}

fn counts(base: &Held) -> Vec<Boundary> {
    let mut cases = Vec::new();
    for table in 0..4 {
        for (name, more) in [("a word more", 1), ("a record more", WIDTHS[table]), ("many more", 5 * WIDTHS[table] - 1)]
        {
            cases.push(with(base, format!("table {table}, {name}"), None, |held| {
                held.table_vec(table).extend(vec![0xffff_ffff; more]);
            }));
        }
        cases.push(with(base, format!("table {table}, a word less"), Some(Clause::Counts), |held| {
            held.table_vec(table).pop();
        }));
        for change in [1, 0u32.wrapping_sub(1), 0x8000_0000] {
            let count = base.words.header[8 + table].wrapping_add(change);
            // One binding less is a reflection too.
            let clause = (table != 0 || change != 0u32.wrapping_sub(1)).then_some(Clause::Counts);
            cases.push(with(base, format!("table {table}, count {count}"), clause, |held| {
                held.words.header[8 + table] = count;
            }));
        }
    }
    for (first, second) in [(4, 0), (0, 4), (1, 3)] {
        cases.push(with(base, format!("{first} and {second} variables"), None, |held| {
            (held.words.buffers[3], held.words.buffers[10]) = (first, second);
        }));
    }
    for (first, second) in [(2, 1), (2, 3), (0xffff_ffff, 5), (5, 0xffff_ffff), (0x8000_0002, 0x8000_0002)] {
        cases.push(with(base, format!("{first} and {second} variables"), Some(Clause::Counts), |held| {
            (held.words.buffers[3], held.words.buffers[10]) = (first, second);
        }));
    }
    for (node, count) in [(0, 1), (0, 0xffff_ffff), (1, 2), (1, 4), (2, 1), (2, 3), (2, 65_536)] {
        cases.push(with(base, format!("node {node} with {count} members"), Some(Clause::Counts), |held| {
            held.words.types[node * TYPE_WORDS + 5] = count;
        }));
    }
    cases
}

/// Chains of 65 levels and one more; the table is made by hand, for no chunk reads so.
fn depths() -> Vec<Boundary> {
    let mut cases = Vec::new();
    for major in [4, 5] {
        let chunk = chains::chain(major, 65, End::Leaf);
        let held = Held::read(&chunk, model::read(&chunk, &Rooms::FULL).expect("65 levels read"));
        cases.push(with(&held, "65 levels".to_string(), None, |_| ()));
        cases.push(with(&held, "66 levels".to_string(), Some(Clause::Depth), |held| {
            let last = held.words.types.len() - TYPE_WORDS;
            held.words.types[last + 5] = 1;
            held.words.types.extend([0; TYPE_WORDS]);
            held.words.count_records();
        }));
    }
    cases
}

/// As many records as there may be, and one more; all are of zeros, but what counts them.
fn rooms() -> Vec<Boundary> {
    let mut cases = Vec::new();
    let mut empty = Held::default();
    empty.words.header[0] = 0x400;
    let mut add = |name: &str, lengths: [usize; 4], variables: &[u32], members: &[(usize, u32)], clause| {
        cases.push(with(&empty, format!("{name} {lengths:?}"), clause, |held| {
            for table in 0..4 {
                *held.table_vec(table) = vec![0; lengths[table] * WIDTHS[table]];
            }
            variables.iter().enumerate().for_each(|(buffer, &count)| held.words.buffers[buffer * 7 + 3] = count);
            members.iter().for_each(|&(node, count)| held.words.types[node * TYPE_WORDS + 5] = count);
            held.words.count_records();
        }));
    };
    let [bindings, buffers, variables, types] = LIMITS;
    for more in [0, 1] {
        let clause = (more == 1).then_some(Clause::Room);
        add("bindings", [bindings + more, 0, 0, 0], &[], &[], clause);
        add("buffers", [0, buffers + more, 0, 0], &[], &[], clause);
        let held = variables + more;
        add("variables", [0, 1, held, held], &[held as u32], &[], clause);
        add("variables", [0, 2, held, held], &[1_000, held as u32 - 1_000], &[], clause);
        add("nodes", [0, 1, 1, types + more], &[1], &[(0, (types + more - 1) as u32)], clause);
        add("nodes", [0, 1, 2, types + more], &[2], &[(1, (types + more - 2) as u32)], clause);
    }
    cases
}

//! Spelling and listing: document 01's own examples, rdef.rs against the model, and what is stored.

use oracle::generate::{samples as chunks, Generator as Chunks};
use oracle::model;
use oracle::rdef::{hlsl_type_name, parse_rdef, TypeDesc};
use oracle::spelling::check::place;
use oracle::spelling::generate::{examples, grid, long, samples, with_rooms, Generator};
use oracle::spelling::model::Model;
use oracle::spelling::rust::Rust;
use oracle::spelling::{stored, Query, Speller, KINDS, LONGEST};
use oracle::tables::Rooms;
use std::collections::HashSet;

#[test]
fn every_example_gives_its_answer() {
    for example in examples::all() {
        let (query, room) = (&example.case.query, example.case.room);
        assert_eq!(Rust.answer(query, room), example.answer, "rdef.rs: {}", example.name);
        assert_eq!(Model.answer(query, room), example.answer, "the model: {}", example.name);
    }
}

#[test]
fn every_fixed_query_agrees_with_rdef_rs() {
    for query in [grid::queries(), long::queries(), samples::queries()].concat() {
        for case in with_rooms(&query) {
            assert_eq!(Model.answer(&query, case.room), Rust.answer(&query, case.room), "{case}");
        }
    }
}

#[test]
fn the_model_agrees_with_rdef_rs_on_100_000_of_each_kind() {
    let generator = Generator::new(1);
    for (kind, name) in KINDS.iter().enumerate() {
        let mut counts = [0; 4];
        for number in 0..100_000 {
            let case = generator.case(kind, number);
            assert_eq!(case.query.kind(), kind);
            let answer = Rust.answer(&case.query, case.room);
            assert_eq!(Model.answer(&case.query, case.room), answer, "{case}");
            counts[place(answer.number)] += 1;
        }
        // Every answer there is comes up: a text that is read has no name and no output, a listing no 18.
        let can_be = [true, kind != 2, kind != 2, kind != 3];
        for (count, can_be) in counts.iter().zip(can_be) {
            assert_eq!(*count > 5_000, can_be, "{name}: {counts:?}");
        }
    }
}

/// Texts around the greatest length of an output are 17 from 65,537 bytes on, whatever is lent.
#[test]
fn the_greatest_length() {
    for kind in [0, 1, 3] {
        for wide in [false, true] {
            for (length, number) in [(LONGEST - 1, 0), (LONGEST, 0), (LONGEST + 1, 17)] {
                let answer = Rust.answer(&long::of_length(kind, 1, length, wide), 100_000);
                assert_eq!(answer.number, number);
                assert_eq!(answer.text.len(), if number == 0 { length } else { 0 });
            }
        }
    }
}

/// What rdef.rs itself makes of whole chunks is what the words of their records give.
#[test]
fn records_give_what_the_structs_give() {
    let chunks_made = Chunks::new(2);
    let mut all: Vec<Vec<u8>> = chunks::all().into_iter().map(|sample| sample.bytes).collect();
    all.extend((0..3_000).map(|number| chunks_made.chunk(number).1).filter(|chunk| chunk.len() < 4_096));
    let (mut spelled, mut listed) = (0, 0);
    for chunk in all {
        if model::read(&chunk, &Rooms::FULL).map_or(true, |answer| answer.types.len() > 17 * 200) {
            continue;
        }
        let reflection = parse_rdef(&chunk).expect("rdef.rs reads it");
        let mut lines = Vec::new();
        lines.extend(reflection.bindings.iter().map(|binding| Some(binding.to_string())));
        listed += lines.len();
        let mut declared = Vec::new();
        for variable in reflection.constant_buffers.iter().flat_map(|buffer| &buffer.variables) {
            nodes(&variable.var_type, &mut lines);
            declared.push(hlsl_type_name(&variable.var_type).map(|spelling| format!("{spelling} {};", variable.name)));
        }
        spelled += lines.iter().flatten().count();
        lines.extend(declared);
        let queries = samples::of_chunk(&chunk);
        assert_eq!(queries.len(), lines.len());
        for (query, line) in queries.iter().zip(lines) {
            let answer = Model.answer(query, LONGEST);
            assert_eq!(answer.number, if line.is_some() { 0 } else { 18 });
            assert_eq!(answer.text, line.unwrap_or_default().into_bytes());
        }
    }
    assert!(spelled > 1_000 && listed > 1_000, "{spelled} {listed}");
}

/// The spellings of a type and all below it, in walk order.
fn nodes(node: &TypeDesc<'_>, lines: &mut Vec<Option<String>>) {
    lines.push(hlsl_type_name(node));
    node.members.iter().for_each(|member| nodes(&member.member_type, lines));
}

/// Spelled without a name and read again: the same numbers, but a matrix is of class 3 and what is not
/// spelled is 1.
#[test]
fn what_is_spelled_is_understood() {
    let generator = Generator::new(3);
    let mut count = 0;
    for number in 0..50_000 {
        let Query::TypeName(buffers, node) = generator.case(0, number).query else { unreachable!() };
        let [class, base, rows, columns, elements, members] = std::array::from_fn(|index| node[index]);
        if let (Ok(text), 0, 0..=3) = (Rust.type_name(&buffers.chunk, &buffers.edits, &node), members, class) {
            let wanted = match class {
                0 => [0, base, 1, 1, elements],
                1 => [1, base, 1, columns, elements],
                _ => [3, base, rows, columns, elements],
            };
            assert_eq!(Rust.parse_type(&text), Ok(wanted));
            count += 1;
        }
    }
    assert!(count > 10_000, "{count}");
}

#[test]
fn the_stored_sample_has_what_it_must() {
    let cases = stored::cases();
    let mut counts = [0; 4];
    let mut codes: [HashSet<u32>; 5] = Default::default();
    for case in &cases {
        counts[case.query.kind()] += 1;
        match &case.query {
            Query::TypeName(_, node) => {
                codes[0].insert(node[0]);
                codes[1].insert(node[1]);
            }
            Query::ListBinding(_, binding) => {
                codes[2].insert(binding[3]);
                codes[3].insert(binding[5]);
                codes[4].insert(binding[9]);
            }
            _ => {}
        }
        assert!(case.query.bytes() <= 256 && case.room <= 512, "{case}");
    }
    assert!(counts[0] >= 600 && counts[1] >= 200 && counts[2] >= 1_000 && counts[3] >= 700, "{counts:?}");
    for (codes, last) in codes.iter().zip([8, 60, 15, 13, 31]) {
        assert!((0..=last).all(|code| codes.contains(&code)) && codes.contains(&0xffff_ffff));
    }
    assert!(stored::file(&cases).len() < 1 << 20);
}

/// The file has the form that README.md gives, to its last byte.
#[test]
fn the_stored_file_can_be_read() {
    let cases = stored::cases();
    let file = stored::file(&cases);
    let mut rest = &file[..];
    assert_eq!(word(&mut rest) as usize, cases.len());
    for case in &cases {
        let answer = Rust.answer(&case.query, case.room);
        let kind = word(&mut rest);
        assert_eq!(kind as usize, case.query.kind() + 1);
        if let Query::ParseType(text) = &case.query {
            assert_eq!(bytes(&mut rest), *text);
            assert_eq!(word(&mut rest), answer.number);
            assert_eq!([0; 5].map(|_| word(&mut rest)), answer.numbers);
            continue;
        }
        let (buffers, records) = match &case.query {
            Query::TypeName(buffers, node) => (buffers, node.to_vec()),
            Query::Declaration(buffers, node, variable) => (buffers, [&node[..], variable].concat()),
            Query::ListBinding(buffers, binding) => (buffers, binding.to_vec()),
            Query::ParseType(_) => unreachable!(),
        };
        assert_eq!(bytes(&mut rest), buffers.chunk);
        assert_eq!(bytes(&mut rest), buffers.edits);
        records.iter().for_each(|&expected| assert_eq!(word(&mut rest), expected));
        assert_eq!(word(&mut rest) as usize, case.room);
        assert_eq!(word(&mut rest), answer.number);
        assert_eq!(bytes(&mut rest), answer.text);
    }
    assert!(rest.is_empty());
}

fn word(rest: &mut &[u8]) -> u32 {
    let (word, after) = rest.split_at(4);
    *rest = after;
    u32::from_le_bytes(word.try_into().expect("four bytes"))
}

fn bytes<'a>(rest: &mut &'a [u8]) -> &'a [u8] {
    let length = word(rest) as usize;
    let (bytes, after) = rest.split_at(length);
    *rest = after;
    bytes
}

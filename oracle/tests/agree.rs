//! The model against document 01's own examples and against rdef.rs, and the comparison against readers
//! that are wrong.

use oracle::check::{Checker, Lending};
use oracle::comparison::Comparison;
use oracle::generate::rng::Rng;
use oracle::generate::{examples, fixed_chunks, plan, Generator, Kind, KINDS};
use oracle::port::{self, Reader};
use oracle::rdef::{parse_only, parse_rdef};
use oracle::tables::Rooms;
use oracle::{model, words};

fn number(chunk: &[u8], rooms: &Rooms) -> u32 {
    model::read(chunk, rooms).err().unwrap_or(0)
}

/// What rdef.rs reads, where it may be asked.
fn agrees(chunk: &[u8]) -> bool {
    match model::read(chunk, &Rooms::FULL) {
        Err(2 | 15) => true,
        outcome => words::read(chunk) == outcome.ok(),
    }
}

#[test]
fn the_table_of_refusals_gives_its_numbers() {
    let examples = examples::refusals();
    for (index, example) in examples.iter().enumerate() {
        assert_eq!(example.number as usize, index + 1);
        assert_eq!(number(&example.bytes, &Rooms::FULL), example.number, "{}", example.name);
    }
    assert_eq!(examples.len(), 15);
}

#[test]
fn every_fixed_chunk_gives_its_number() {
    let wrong: Vec<String> = fixed_chunks()
        .iter()
        .map(|fixed| (fixed, number(&fixed.bytes, &Rooms::FULL)))
        .filter(|(fixed, number)| *number != fixed.number)
        .map(|(fixed, number)| format!("{}: {number}, not {}", fixed.name, fixed.number))
        .collect();
    assert!(wrong.is_empty(), "{wrong:#?}");
}

#[test]
fn every_fixed_chunk_agrees_with_rdef_rs() {
    for fixed in fixed_chunks() {
        assert!(agrees(&fixed.bytes), "{}", fixed.name);
    }
}

/// Lengths and places are those of document 01's edge chunks, and rdef.rs writes the same bytes.
#[test]
fn edge_chunks_have_the_places_of_the_paper() {
    let canonical =
        |chunk: &[u8]| parse_rdef(chunk).and_then(|reflection| reflection.original_canonical).expect("reads");
    let e = examples::readings().remove(0).bytes;
    assert_eq!(canonical(&e), examples::case_e_canonical());
    let with = [
        (examples::case_v(), 112),
        (examples::case_v_with_default(), 116),
        (examples::case_v_in_major_5(), 180),
        (examples::floats_a_and_b(false), 148),
        (examples::floats_a_and_b(true), 140),
        (examples::readings().remove(2).bytes, 64),
    ];
    for (chunk, length) in with {
        assert_eq!(chunk.len(), length);
        assert_eq!(canonical(&chunk), chunk);
    }
}

#[test]
fn the_words_of_case_v() {
    let answer = model::read(&examples::case_v(), &Rooms::FULL).expect("V reads");
    assert_eq!(answer.header, [0x400, 0, 0, 108, 0, 0, 0, 0, 0, 1, 1, 1]);
    assert_eq!(answer.bindings, []);
    assert_eq!(answer.buffers, [0, 52, 8, 1, 16, 0, 0]);
    assert_eq!(answer.variables, [0, 88, 1, 0, 4, 2, 0, 0, 0, 0, 0, 0, 0]);
    assert_eq!(answer.types, [0, 3, 1, 1, 0, 0, 0, 0, 0, 0, 0, 0, 0, 0, 0, 0, 0]);
    let answer = model::read(&examples::case_v_with_default(), &Rooms::FULL).expect("reads");
    assert_eq!(answer.variables[6..9], [0, 108, 4]);
    let answer = model::read(&examples::float4_10(), &Rooms::FULL).expect("reads");
    assert_eq!(answer.types[..6], [1, 3, 1, 4, 10, 0]);
}

/// A lent table with less room lowers its limit; depth and path come before room, room before the range.
#[test]
fn lent_room_is_the_limit() {
    let v = examples::case_v();
    assert_eq!(number(&v, &Rooms::lent([0, 7, 13, 17])), 0);
    for short in [[0, 6, 13, 17], [0, 7, 12, 17], [0, 7, 13, 16], [0, 0, 0, 0]] {
        assert_eq!(number(&v, &Rooms::lent(short)), 15);
    }
    let one = Rooms { types: 1, ..Rooms::FULL };
    let example = |index: usize| examples::refusals()[index - 1].bytes.clone();
    assert_eq!(number(&example(14), &one), 14);
    assert_eq!(number(&example(13), &Rooms { types: 65, ..Rooms::FULL }), 13);
    assert_eq!(number(&example(13), &Rooms { types: 64, ..Rooms::FULL }), 15);
    assert_eq!(number(&example(7), &Rooms { bindings: 0, ..Rooms::FULL }), 15);
    assert_eq!(Rooms::lent([1 << 20; 4]), Rooms::FULL);
}

#[test]
fn the_model_agrees_with_rdef_rs_on_100_000_chunks() {
    let generator = Generator::new(1);
    let mut counts = [0; 16];
    for index in 0..100_000 {
        let (kind, chunk) = generator.chunk(index);
        counts[number(&chunk, &Rooms::FULL) as usize] += 1;
        assert!(agrees(&chunk), "{kind:?} {chunk:x?}");
    }
    // Every answer there is comes up.
    assert!(counts.iter().all(|&count| count > 20), "{counts:?}");
    assert!(counts[0] > 30_000, "{counts:?}");
}

#[test]
fn every_kind_of_chunk_reads_at_times() {
    let generator = Generator::new(2);
    assert_eq!(KINDS.iter().map(|kind| kind.1).sum::<usize>(), 1_000);
    for (kind, _) in KINDS {
        let read = |index| number(&generator.of_kind(kind, &mut Rng::new(3, index)), &Rooms::FULL) == 0;
        let count = (0..200).filter(|&index| read(index)).count();
        assert!(count > 0, "{kind:?}");
        if kind == Kind::Structured {
            assert!(count > 190, "{count}");
        }
    }
}

#[test]
fn what_stands_in_a_plan_is_read() {
    // Both strides, both identifiers, all together and not: a plan's choices reach the words.
    let generator = Generator::new(4);
    let mut seen = std::collections::HashSet::new();
    let mut defaults = [false; 3];
    for index in 0..2_000 {
        let chunk = generator.of_kind(Kind::Structured, &mut Rng::new(5, index));
        if let Ok(answer) = model::read(&chunk, &Rooms::FULL) {
            seen.insert((answer.header[5], answer.header[6]));
            for variable in answer.variables.chunks(13) {
                defaults[0] |= variable[8] > 0;
                defaults[1] |= variable[7] > 0 && variable[8] == 0;
                defaults[2] |= variable[8] > 0 && (variable[7] + variable[8]) as usize == chunk.len();
            }
        }
    }
    for expected in [(0, 0), (plan::RD11, 32), (plan::RD11, 40), (plan::SM5_1, 32), (plan::SM5_1, 40)] {
        assert!(seen.contains(&expected), "{seen:x?}");
    }
    assert_eq!(defaults, [true; 3]);
}

#[test]
fn parsing_alone_reads_the_same() {
    let generator = Generator::new(6);
    for index in 0..20_000 {
        let (_, chunk) = generator.chunk(index);
        if !matches!(model::read(&chunk, &Rooms::FULL), Err(2 | 15)) {
            let alone = parse_only(&chunk).map(|reflection| words::words(&chunk, &reflection));
            assert_eq!(alone, words::read(&chunk));
        }
    }
}

/// How many differences a reader shows on a few thousand chunks.
fn differences(reader: Reader) -> u64 {
    let mut checker = Checker::new(reader);
    let (generator, mut rng) = (Generator::new(7), Rng::new(8, 0));
    for index in 0..3_000 {
        let (kind, chunk) = generator.chunk(index);
        let lending = rng.pick(&[Lending::Full, Lending::Over, Lending::Enough, Lending::Short, Lending::Small]);
        checker.compare(&format!("{kind:?}"), &chunk, lending, &mut rng);
    }
    assert_eq!(checker.tally.compared, 3_000);
    checker.tally.different
}

#[test]
fn the_comparison_finds_what_is_wrong() {
    assert_eq!(differences(port::model), 0);
    // One number taken for another.
    assert!(
        differences(|chunk, header, tables| match port::model(chunk, header, tables) {
            9 => 10,
            other => other,
        }) > 0
    );
    // A refusal that leaves a word, a success that leaves one behind the records.
    assert!(
        differences(|chunk, header, mut tables| {
            let last = tables[3].len().saturating_sub(1);
            let kept = tables[3].last().copied();
            let number = port::model(chunk, header, tables.each_mut().map(|table| &mut **table));
            if let (Some(kept), Some(word)) = (kept, tables[3].get_mut(last)) {
                *word = kept;
            }
            number
        }) > 0
    );
    // A room that is not lowered by what was lent.
    assert!(
        differences(|chunk, header, tables| {
            let number = port::model(chunk, header, tables);
            if number == 15 {
                model::read(chunk, &Rooms::FULL).err().unwrap_or(0)
            } else {
                number
            }
        }) > 0
    );
    // A header that a refusal leaves.
    assert!(
        differences(|chunk, header, tables| {
            let number = port::model(chunk, header, tables);
            if number != 0 {
                header[0] = 4;
            }
            number
        }) > 0
    );
    // A default's length taken from the size even where there is none.
    assert!(
        differences(|chunk, header, tables| {
            let [bindings, buffers, variables, types] = tables;
            let number = port::model(chunk, header, [bindings, buffers, &mut *variables, types]);
            if number == 0 && variables.len() >= 13 {
                variables[8] = variables[4];
            }
            number
        }) > 0
    );
}

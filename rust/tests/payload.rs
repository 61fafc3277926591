//! The linked payload function held to rdef.rs and to document 01, to the last word of all that it is lent.

mod common;

use common::{cases, seed};
use nontrefalcu::layout::{LIMITS, SCRATCH_WORDS, WIDTHS};
use nontrefalcu::raw;
use oracle::generate::rng::Rng;
use oracle::model;
use oracle::tables::Rooms;
use oracle::writing::generate::{fixed, Generator};
use oracle::writing::{readable, rust, Case, Held};

/// None: the chunk itself; else what is written.
fn expected(case: &Case, enough: bool) -> Result<Option<Vec<u8>>, u32> {
    let held = &case.held;
    if !enough || case.scratch < SCRATCH_WORDS {
        return Err(15);
    }
    readable::readable(held).map_err(|_| 16u32)?;
    let canonical = rust::canonical(held);
    // Readable reflections are equal where their canonical forms are: rdef.rs compares these.
    let found = model::read(&held.chunk, &Rooms::FULL).map(|words| Held::read(&held.chunk, words));
    if found.is_ok_and(|found| rust::canonical(&found) == canonical) {
        return Ok(None);
    }
    if canonical.len() > case.room.min(65_536) {
        return Err(17);
    }
    Ok(Some(canonical))
}

#[derive(Default)]
struct Counts {
    chunks: u64,
    outputs: u64,
    refused: [u64; 18],
}

fn hold(name: &str, case: &Case, found: &mut [Vec<u32>; 4], rng: &mut Rng, counts: &mut Counts) {
    let lengths: [usize; 4] = std::array::from_fn(|table| {
        let room = LIMITS[table] * WIDTHS[table];
        if rng.one_in(200) {
            room - 1
        } else {
            room
        }
    });
    let enough = (0..4).all(|table| lengths[table] == LIMITS[table] * WIDTHS[table]);
    let (old, garbage) = (rng.word() | 1, rng.between(1, 255) as u8);
    for table in found.iter_mut() {
        table.fill(old);
    }
    let (mut scratch, mut out, mut answer) = (vec![old; case.scratch], vec![garbage; case.room], [old; 3]);
    let Held { chunk, edits, words } = &case.held;
    let [bindings, buffers, variables, types] = words.tables();
    let [found_bindings, found_buffers, found_variables, found_types] = found;
    let number = raw::write_payload(
        chunk,
        edits,
        &words.header,
        bindings,
        buffers,
        variables,
        types,
        &mut found_bindings[..lengths[0]],
        &mut found_buffers[..lengths[1]],
        &mut found_variables[..lengths[2]],
        &mut found_types[..lengths[3]],
        &mut scratch,
        &mut out,
        &mut answer,
    );
    for (table, length) in found.iter().zip(lengths) {
        assert!(table[..length].iter().all(|&word| word == 0), "{name}: a table is not zero");
        assert!(table[length..].iter().all(|&word| word == old), "{name}: written behind a table");
    }
    assert!(scratch.iter().all(|&word| word == 0), "{name}: scratch is not zero");
    let (given, rest) = match expected(case, enough) {
        Err(refusal) => {
            assert_eq!((number, answer), (refusal, [0; 3]), "{name}");
            counts.refused[refusal as usize] += 1;
            (Vec::new(), 0)
        }
        Ok(None) => {
            assert_eq!((number, answer), (0, [0, chunk.len() as u32, 0]), "{name}");
            counts.chunks += 1;
            (Vec::new(), garbage)
        }
        Ok(Some(bytes)) => {
            assert_eq!((number, answer), (0, [1, bytes.len() as u32, 0]), "{name}");
            counts.outputs += 1;
            (bytes, garbage)
        }
    };
    assert!(
        out[..given.len()] == given && out[given.len()..].iter().all(|&byte| byte == rest),
        "{name}: the output differs"
    );
}

#[test]
fn every_word_is_as_document_01_has_it() {
    let mut found: [Vec<u32>; 4] = std::array::from_fn(|table| vec![0; LIMITS[table] * WIDTHS[table]]);
    let mut rng = Rng::new(seed() + 5, u64::MAX);
    let mut counts = Counts::default();
    for (name, held) in [fixed::chunks(), fixed::boundary(), fixed::faulty(), fixed::limits()].concat() {
        for case in fixed::with_rooms(&held) {
            hold(&name, &case, &mut found, &mut rng, &mut counts);
        }
    }
    let generator = Generator::new(seed() + 5);
    for number in 0..cases() {
        let (kind, case) = generator.case(number);
        hold(&format!("case {number}, {kind:?}"), &case, &mut found, &mut rng, &mut counts);
    }
    let Counts { chunks, outputs, refused } = counts;
    println!(
        "payload: {chunks} chunks, {outputs} outputs, refused 15 {}, 16 {}, 17 {}",
        refused[15], refused[16], refused[17]
    );
}

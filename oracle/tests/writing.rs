//! The model of readable and the bytes of rdef.rs, against document 01 and against what rdef.rs itself reads.

use oracle::generate::rng::Rng;
use oracle::generate::{examples, fixed_chunks, Generator as Chunks};
use oracle::model as reading;
use oracle::rdef::parse_rdef;
use oracle::tables::Rooms;
use oracle::writing::generate::{boundaries, edits, faults, fixed, large, Generator, Kind, KINDS};
use oracle::writing::readable::{readable, Clause, CLAUSES};
use oracle::writing::rust::{canonical, resource_def};
use oracle::writing::{model, pairs, stored, traps, write, Case, Held, LONGEST, SCRATCH};

fn held(chunk: &[u8]) -> Held {
    Held::read(chunk, reading::read(chunk, &Rooms::FULL).expect("it reads"))
}

/// A reflection by its bytes: names and defaults count, their places do not.
fn contents(held: &Held) -> String {
    format!("{:?}", resource_def(held))
}

#[test]
fn what_is_read_is_readable_and_written_as_rdef_rs_writes_it() {
    let chunks = Chunks::new(11);
    let fixed = fixed_chunks().into_iter().map(|fixed| fixed.bytes);
    let mut read = 0;
    for chunk in fixed.chain((0..100_000).map(|number| chunks.chunk(number).1)) {
        if let Ok(words) = reading::read(&chunk, &Rooms::FULL) {
            read += 1;
            let held = Held::read(&chunk, words);
            assert_eq!(readable(&held), Ok(()), "{chunk:x?}");
            let by_rust = parse_rdef(&chunk).and_then(|def| def.original_canonical).expect("rdef.rs reads it");
            assert_eq!(canonical(&held), by_rust, "{chunk:x?}");
        }
    }
    assert!(read > 40_000, "{read}");
}

#[test]
fn the_lengths_of_document_01() {
    let mut chunks = examples::readings();
    let (t, e) = (chunks.remove(2).bytes, chunks.remove(0).bytes);
    let with = [
        (e, 32),
        (t, 64),
        (examples::case_v(), 112),
        (examples::case_v_with_default(), 116),
        (examples::case_v_in_major_5(), 180),
        (examples::floats_a_and_b(false), 148),
        (examples::floats_a_and_b(true), 140),
    ];
    for (chunk, length) in with {
        assert_eq!(canonical(&held(&chunk)).len(), length);
    }
    // 17: case E into 31 bytes.
    let e = held(&examples::readings().remove(0).bytes);
    let into = |scratch: usize, room: usize| write(&Case { held: e.clone(), scratch, room }).map(|bytes| bytes.len());
    assert_eq!(into(SCRATCH, 31), Err(17));
    assert_eq!(into(SCRATCH, 32), Ok(32));
    assert_eq!(into(SCRATCH - 1, 32), Err(15));
}

#[test]
fn each_boundary_breaks_its_clause() {
    let wrong: Vec<String> = boundaries::all()
        .into_iter()
        .filter(|(_, held, clause)| readable(held).err() != *clause)
        .map(|(name, held, clause)| format!("{name}: {:?}, not {clause:?}", readable(&held).err()))
        .collect();
    assert!(wrong.is_empty(), "{wrong:#?}");
}

#[test]
fn each_fault_breaks_its_clause_and_every_clause_is_broken() {
    let mut broken: Vec<Clause> = boundaries::all().into_iter().filter_map(|(_, _, clause)| clause).collect();
    for base in boundaries::bases() {
        assert_eq!(readable(&base), Ok(()));
        for (name, clause, fault) in faults::FAULTS {
            for turn in 0..100 {
                let mut held = base.clone();
                if fault(&mut held, &mut Rng::new(5, turn)).is_some() {
                    assert_eq!(readable(&held), Err(clause), "{name} {turn}");
                    broken.push(clause);
                }
            }
        }
    }
    broken.sort();
    broken.dedup();
    assert_eq!(broken, CLAUSES);
}

#[test]
fn edits_leave_a_reflection_readable() {
    let generator = Generator::new(12);
    for turn in 0..20_000 {
        let mut rng = Rng::new(13, turn);
        let mut held = generator.of_kind(Kind::Read, &mut rng);
        let before = contents(&held);
        edits::move_texts(&mut held, &mut rng);
        assert_eq!(contents(&held), before);
        edits::edit(&mut held, &mut rng);
        assert_eq!(readable(&held), Ok(()), "{held:?}");
    }
}

#[test]
fn what_is_written_reads_back_and_is_written_again() {
    let generator = Generator::new(14);
    let mut written = 0;
    for number in 0..30_000 {
        let (_, case) = generator.case(number);
        if let Ok(bytes) = write(&Case { scratch: SCRATCH, room: LONGEST, ..case.clone() }) {
            written += 1;
            let again = held(&bytes);
            assert_eq!(contents(&again), contents(&case.held));
            assert_eq!(canonical(&again), bytes);
        }
    }
    assert!(written > 20_000, "{written}");
}

#[test]
fn every_kind_gives_its_answers() {
    assert_eq!(KINDS.iter().map(|kind| kind.1).sum::<usize>(), 1_000);
    let generator = Generator::new(15);
    let mut counts = [0; 4];
    for number in 0..20_000 {
        let (kind, case) = generator.case(number);
        let number = write(&case).err().unwrap_or(0);
        counts[[0, 15, 16, 17].iter().position(|&known| known == number).expect("a known number")] += 1;
        if kind == Kind::Read || kind == Kind::Edited {
            assert_ne!(number, 16);
        }
    }
    assert!(counts[0] > 14_000 && counts[1] > 300 && counts[2] > 2_000 && counts[3] > 1_000, "{counts:?}");
}

#[test]
fn the_limits_are_reached() {
    let lengths: Vec<usize> = fixed::lengths().iter().map(|(_, held)| canonical(held).len()).collect();
    for length in [65_532, 65_536, 65_540] {
        assert!(lengths.contains(&length), "{lengths:?}");
    }
    for (name, size) in large::SIZES {
        let held = large::held(&size, 0);
        assert_eq!(readable(&held), Ok(()), "{name}");
        let length = canonical(&held).len();
        assert_eq!(length > LONGEST, name.ends_with("too long"), "major {}, {name}: {length}", size.major);
    }
}

#[test]
fn pairs_are_alike_only_if_equal_pairs_are_kept() {
    let generator = Generator::new(16);
    for number in 0..5_000 {
        let [a, b] = generator.pair(number);
        if let (Ok(one), Ok(other)) = (write(&a), write(&b)) {
            pairs::alike([&a.held, &b.held], [&one, &other]).expect("they are alike");
        }
    }
    let equal = held(&examples::floats_a_and_b(true));
    let unequal = held(&examples::floats_a_and_b(false));
    assert!(pairs::alike([&equal, &unequal], [&canonical(&equal), &canonical(&unequal)]).is_err());
    // A byte outside of the defaults.
    let bytes = canonical(&unequal);
    let mut other = bytes.clone();
    other[20] ^= 1;
    assert!(pairs::alike([&unequal, &unequal], [&bytes, &other]).is_err());
}

#[test]
fn the_stored_sample_is_large_and_the_same_each_time() {
    let cases = stored::cases();
    let file = stored::file(&cases);
    assert!(cases.len() >= 1_200 && file.len() < 1 << 22, "{} {}", cases.len(), file.len());
    assert!(cases.iter().filter(|case| write(case).is_ok()).count() >= 1_000);
    // The program that replays it has room for so much.
    for case in &cases {
        let words = case.held.words.tables().map(<[u32]>::len);
        assert!(words.into_iter().zip([12_544, 512, 26_880, 69_888]).all(|(words, most)| words <= most));
        assert!(case.scratch <= 101_376 && case.room <= 70_656);
    }
    assert_eq!(stored::file(&stored::cases()), file);
}

#[test]
fn the_model_writes_what_rdef_rs_writes() {
    let generator = Generator::new(17);
    for number in 0..60_000 {
        let (_, case) = generator.case(number);
        if readable(&case.held).is_ok() {
            assert_eq!(model::canonical(&case.held, None), canonical(&case.held), "{case}");
        }
    }
    for (name, held) in [fixed::chunks(), fixed::boundary(), fixed::nearly_equal(), fixed::limits()].concat() {
        if readable(&held).is_ok() {
            assert_eq!(model::canonical(&held, None), canonical(&held), "{name}");
        }
    }
}

/// Each trap on the road changes the bytes of some stored case, and of some fresh one.
#[test]
fn every_trap_is_seen() {
    let generator = Generator::new(18);
    let mut fresh: Vec<Case> = (0..8_000).map(|number| generator.case(number).1).collect();
    fresh.retain(|case| write(case).is_ok());
    let mut stored = stored::cases();
    stored.retain(|case| write(case).is_ok());
    for trap in traps::TRAPS {
        for (name, cases) in [("stored", &stored), ("fresh", &fresh)] {
            let seen = |case: &&Case| model::canonical(&case.held, Some(trap)) != canonical(&case.held);
            let count = cases.iter().filter(seen).count();
            assert!(count >= 5, "{trap:?}: {count} {name} cases");
        }
    }
}

//! The comparison of canonical forms finds writers that are wrong.

use oracle::comparison::Comparison;
use oracle::generate::rng::Rng;
use oracle::writing::check::Checker;
use oracle::writing::port::{model, Lent, Writer};
use oracle::writing::SCRATCH;

/// How many differences the writer shows on some thousand cases and pairs.
fn differences(writer: Writer) -> u64 {
    let mut checker = Checker::new(writer);
    checker.compare_fresh(3_000, 7, &mut Rng::new(8, 0));
    assert_eq!(checker.tally.compared, 3_600);
    checker.tally.different
}

#[test]
fn the_model_shows_none() {
    assert_eq!(differences(model), 0);
}

/// The model with some of the words lent otherwise.
fn with_types(lent: &Lent<'_>, change: impl FnOnce(&mut [u32]), rest: (&mut [u32], &mut [u8], &mut [u32])) -> u32 {
    let [bindings, buffers, variables, types] = lent.tables;
    let mut types = types.to_vec();
    change(&mut types);
    let tables = [bindings, buffers, variables, &types[..]];
    model(&Lent { tables, ..*lent }, rest.0, rest.1, rest.2)
}

#[test]
fn wrong_writers() {
    // Each is the model but for one thing.
    let wrong: [Writer; 12] = [
        // A word of scratch left.
        |lent, scratch, out, length| {
            let number = model(lent, scratch, out, length);
            if let Some(last) = scratch.last_mut() {
                *last = 1;
            }
            number
        },
        // A byte written behind the form.
        |lent, scratch, out, length| {
            let number = model(lent, scratch, out, length);
            if let (0, Some(byte)) = (number, out.get_mut(length[0] as usize)) {
                *byte = 0;
            }
            number
        },
        // A refusal that leaves bytes.
        |lent, scratch, out, length| {
            let old = out.to_vec();
            let number = model(lent, scratch, out, length);
            if number == 17 {
                out.copy_from_slice(&old);
            }
            number
        },
        // The last byte of padding.
        |lent, scratch, out, length| {
            let number = model(lent, scratch, out, length);
            if number == 0 && out[length[0] as usize - 1] == 0xab {
                out[length[0] as usize - 1] = 0;
            }
            number
        },
        // One word of scratch less is taken.
        |lent, scratch, out, length| {
            let mut own = vec![0; scratch.len().max(SCRATCH)];
            let used = if scratch.len() == SCRATCH - 1 { &mut own[..] } else { &mut own[..scratch.len()] };
            scratch.fill(0);
            model(lent, used, out, length)
        },
        // One word of scratch more is asked for.
        |lent, scratch, out, length| {
            let given = if scratch.len() == SCRATCH { SCRATCH - 1 } else { scratch.len() };
            scratch.fill(0);
            model(lent, &mut vec![0; given], out, length)
        },
        // 17 before 16.
        |lent, scratch, out, length| match model(lent, scratch, out, length) {
            16 if out.len() < 28 => 17,
            number => number,
        },
        // A field of 16 bits cut.
        |lent, scratch, out, length| {
            let cut = |types: &mut [u32]| {
                types.chunks_exact_mut(17).for_each(|node| node[..5].iter_mut().for_each(|field| *field &= 0xffff));
            };
            with_types(lent, cut, (scratch, out, length))
        },
        // A root's name as a member looked at.
        |lent, scratch, out, length| {
            if lent.tables[3].get(13).is_some_and(|&source| source > 1) {
                scratch.fill(0);
                out.fill(0);
                length.fill(0);
                return 16;
            }
            model(lent, scratch, out, length)
        },
        // Extra words of types left out.
        |lent, scratch, out, length| {
            let zero = |types: &mut [u32]| types.chunks_exact_mut(17).for_each(|node| node[6..10].fill(0));
            with_types(lent, zero, (scratch, out, length))
        },
        // The first byte of the version written otherwise where there are two variables or more: a byte that
        // tells of the defaults.
        |lent, scratch, out, length| {
            let number = model(lent, scratch, out, length);
            let default = lent.tables[2].get(7).copied().unwrap_or(0);
            if number == 0 && default % 5 == 3 {
                out[20] ^= 1;
            }
            number
        },
        // The length kept back.
        |lent, scratch, out, length| {
            let number = model(lent, scratch, out, length);
            length[0] = 0;
            number
        },
    ];
    for (index, writer) in wrong.into_iter().enumerate() {
        assert!(differences(writer) > 0, "{index}");
    }
}

//! The comparison of spelling and listing finds entry points that are wrong.

use oracle::comparison::Comparison;
use oracle::generate::rng::Rng;
use oracle::spelling::check::Checker;
use oracle::spelling::model::Model;
use oracle::spelling::port::{Entries, OfRecord, OfText, MODEL};
use oracle::spelling::Speller;

/// How many differences the entry points show on some thousand queries of each kind.
fn differences(entries: Entries) -> u64 {
    let mut checker = Checker::new(entries);
    checker.compare_fresh(4_000, 7, &mut Rng::new(8, 0));
    assert_eq!(checker.tally.compared, 16_000);
    checker.tally.different
}

/// Puts another text of no more bytes where the model's was.
fn replace(out: &mut [u8], length: &mut [u32], text: &[u8]) {
    out[..text.len()].copy_from_slice(text);
    length[0] = text.len() as u32;
}

#[test]
fn the_model_shows_none() {
    assert_eq!(differences(MODEL), 0);
}

#[test]
fn wrong_type_names() {
    // Each is the model but for one thing.
    let wrong: [OfRecord; 8] = [
        // Rows and columns swapped.
        |chunk, edits, node, out, length| {
            let mut node = node.to_vec();
            node.swap(2, 3);
            (MODEL.type_name)(chunk, edits, &node, out, length)
        },
        // Fields cut to 16 bits.
        |chunk, edits, node, out, length| {
            let mut node = node.to_vec();
            node[..5].iter_mut().for_each(|field| *field &= 0xffff);
            (MODEL.type_name)(chunk, edits, &node, out, length)
        },
        // The member count alone cut to 16 bits.
        |chunk, edits, node, out, length| {
            let mut node = node.to_vec();
            node[5] &= 0xffff;
            (MODEL.type_name)(chunk, edits, &node, out, length)
        },
        // A name tested only where it is printed.
        |chunk, edits, node, out, length| {
            let mut node = node.to_vec();
            if node[5] == 0 && node[0] != 5 {
                node[10..13].fill(0);
            }
            (MODEL.type_name)(chunk, edits, &node, out, length)
        },
        // 17 before 18.
        |chunk, edits, node, out, length| match (MODEL.type_name)(chunk, edits, node, out, length) {
            18 if out.is_empty() => 17,
            number => number,
        },
        // A byte written behind the text.
        |chunk, edits, node, out, length| {
            let number = (MODEL.type_name)(chunk, edits, node, out, length);
            if let (0, Some(byte)) = (number, out.get_mut(length[0] as usize)) {
                *byte = 0;
            }
            number
        },
        // A refusal that leaves bytes.
        |chunk, edits, node, out, length| {
            let old = out.to_vec();
            let number = (MODEL.type_name)(chunk, edits, node, out, length);
            if number == 17 {
                out.copy_from_slice(&old);
            }
            number
        },
        // A refusal that leaves the length.
        |chunk, edits, node, out, length| {
            let number = (MODEL.type_name)(chunk, edits, node, out, length);
            if number == 17 {
                length[0] = 1;
            }
            number
        },
    ];
    for (index, type_name) in wrong.into_iter().enumerate() {
        assert!(differences(Entries { type_name, ..MODEL }) > 0, "{index}");
    }
}

#[test]
fn wrong_declarations() {
    // The type's name not tested.
    let untested = Entries {
        declaration: |chunk, edits, node, variable, out, length| {
            let mut node = node.to_vec();
            if node[5] == 0 && node[0] != 5 {
                node[10..13].fill(0);
            }
            (MODEL.declaration)(chunk, edits, &node, variable, out, length)
        },
        ..MODEL
    };
    assert!(differences(untested) > 0);
    // The default's place tested too.
    let too_strict = Entries {
        declaration: |chunk, edits, node, variable, out, length| {
            if variable[6] > 1 {
                out.fill(0);
                length[0] = 0;
                return 16;
            }
            (MODEL.declaration)(chunk, edits, node, variable, out, length)
        },
        ..MODEL
    };
    assert!(differences(too_strict) > 0);
}

#[test]
fn wrong_readings_of_a_spelling() {
    let wrong: [OfText; 5] = [
        // Numbers left by a refusal.
        |text, numbers| {
            let number = (MODEL.parse_type)(text, numbers);
            if number == 18 {
                numbers[4] = 1;
            }
            number
        },
        // A matrix of class 2.
        |text, numbers| {
            let number = (MODEL.parse_type)(text, numbers);
            if numbers[0] == 3 {
                numbers[0] = 2;
            }
            number
        },
        // No sign taken.
        |text, numbers| {
            let signed = text.contains(&b'+');
            (MODEL.parse_type)(if signed { b"" } else { text }, numbers)
        },
        // A sign taken everywhere.
        |text, numbers| {
            let unsigned: Vec<u8> = text.iter().copied().filter(|&byte| byte != b'+').collect();
            (MODEL.parse_type)(&unsigned, numbers)
        },
        // No more than 64 bytes looked at.
        |text, numbers| (MODEL.parse_type)(&text[..text.len().min(64)], numbers),
    ];
    for (index, parse_type) in wrong.into_iter().enumerate() {
        assert!(differences(Entries { parse_type, ..MODEL }) > 0, "{index}");
    }
}

#[test]
fn wrong_listings() {
    let wrong: [OfRecord; 6] = [
        // Letters of a number in upper case.
        |chunk, edits, binding, out, length| {
            let number = (MODEL.list_binding)(chunk, edits, binding, out, length);
            if number == 0 && binding[9] != 0 && binding[9] & 0x1f == 0 {
                let line = out[..length[0] as usize].to_vec();
                let at = line.iter().rposition(|&byte| byte == b'x').expect("0x");
                replace(out, length, &[&line[..at], &line[at..].to_ascii_uppercase()].concat());
            }
            number
        },
        // The line's end without its padding.
        |chunk, edits, binding, out, length| {
            let number = (MODEL.list_binding)(chunk, edits, binding, out, length);
            let line = out[..length[0] as usize].to_vec();
            replace(out, length, line.trim_ascii_end());
            number
        },
        // Padding that counts bytes.
        |chunk, edits, binding, out, length| {
            let number = (MODEL.list_binding)(chunk, edits, binding, out, length);
            let name = binding[2] as usize;
            if number == 0 && name < 20 {
                let line = out[..length[0] as usize].to_vec();
                let scalars = line[..name].iter().filter(|&&byte| byte & 0xc0 != 0x80).count();
                replace(out, length, &[&line[..20], &line[20 + name - scalars..]].concat());
            }
            number
        },
        // An empty name out of place taken.
        |chunk, edits, binding, out, length| {
            let mut binding = binding.to_vec();
            if binding[2] == 0 {
                binding[..2].fill(0);
            }
            (MODEL.list_binding)(chunk, edits, &binding, out, length)
        },
        // Any source but 1 taken for the chunk.
        |chunk, edits, binding, out, length| {
            let mut binding = binding.to_vec();
            binding[0] = u32::from(binding[0] == 1);
            (MODEL.list_binding)(chunk, edits, &binding, out, length)
        },
        // Codes looked up by their low bits.
        |chunk, edits, binding, out, length| {
            let mut binding = binding.to_vec();
            binding[3] &= 0xff;
            let longer = Model.list_binding(chunk, edits, &binding).map_or(0, |line| line.len());
            if longer > out.len() {
                return 17;
            }
            (MODEL.list_binding)(chunk, edits, &binding, out, length)
        },
    ];
    for (index, list_binding) in wrong.into_iter().enumerate() {
        assert!(differences(Entries { list_binding, ..MODEL }) > 0, "{index}");
    }
}

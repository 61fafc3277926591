//! The canonical form of reflections near the limits that fit, or just do not, and of the samples.

use crate::clock::times;
use crate::writing::Lent;
use nontrefalcu::layout::LONGEST_OUTPUT;
use oracle::generate::samples;
use oracle::words;
use oracle::writing::generate::large;
use oracle::writing::rust::{canonical, resource_def};
use oracle::writing::Held;
use oracle::ChunkWriter;
use std::hint::black_box;

pub fn table() {
    println!("Writing the canonical form of other reflections");
    println!("  (a) rdef.rs, write_payload with no original bytes   (b) the library");
    println!("{:<55}{:>8}{:>9}{:>9}{:>7}", "reflection", "written", "(a)", "(b)", "a/b");
    for (name, size) in large::SIZES {
        line(&format!("{name}, major {}", size.major), &large::held(&size, 0));
    }
    for sample in samples::all() {
        let words = words::read(&sample.bytes).expect("rdef.rs reads the sample");
        line(&format!("sample {}", sample.name), &Held::read(&sample.bytes, words));
    }
    println!();
}

fn line(name: &str, held: &Held) {
    let (expected, by_rust) = (canonical(held), resource_def(held));
    let tables = held.words.tables().map(<[u32]>::to_vec);
    let mut lent = Lent::new(&held.chunk, &held.edits, held.words.header, tables);
    // What is timed must be right; a form that is too long is refused.
    let (number, length) = lent.write();
    if expected.len() <= LONGEST_OUTPUT {
        assert_eq!((number, &lent.out[..length as usize]), (0, &*expected));
    } else {
        assert_eq!((number, length), (17, 0));
    }
    let [a, b] =
        times([&mut || drop(black_box(black_box(&by_rust).write_payload())), &mut || _ = black_box(lent.write())]);
    println!("{name:<55}{:>8}{a:>9.0}{b:>9.0}{:>7.2}", expected.len(), a / b);
}

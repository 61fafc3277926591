//! Listing and spelling, for each binding and type of a chunk, and reading the spellings back.

use crate::clock::times;
use crate::writing::Lent;
use nontrefalcu::layout::WIDTHS;
use nontrefalcu::raw;
use oracle::rdef::{self, hlsl_type_name, parse_hlsl_type, parse_only};
use std::fmt::Write;
use std::hint::black_box;

pub fn table(inputs: &[(String, Vec<u8>)]) {
    println!("Listing and spelling, nanoseconds for one binding, variable or text");
    println!("  (a) rdef.rs   (b) the library, into a lent output   (c) the crate, into a String");
    println!(
        "{:<21}{:<21}{:>7}{:>9}{:>9}{:>9}{:>7}{:>7}",
        "entry", "chunk", "texts", "(a)", "(b)", "(c)", "a/b", "a/c"
    );
    for (name, chunk) in inputs {
        lines(name, chunk);
    }
    println!();
}

fn line(entry: &str, name: &str, count: usize, spent: [f64; 3]) {
    let [a, b, c] = spent.map(|time| time / count as f64);
    println!("{entry:<21}{name:<21}{count:>7}{a:>9.1}{b:>9.1}{c:>9.1}{:>7.2}{:>7.2}", a / b, a / c);
}

fn lines(name: &str, chunk: &[u8]) {
    let by_rust = parse_only(chunk).expect("rdef.rs reads the chunk");
    let def = nontrefalcu::parse_rdef(chunk).expect("a chunk that reads");
    let lent = Lent::read(chunk);
    let bindings: Vec<_> = def.bindings().collect();
    let (mut out, mut length) = (vec![0; 65_536], [0]);

    let mut text = String::new();
    let listing = times([
        &mut || {
            for binding in &by_rust.bindings {
                text.clear();
                let _ = write!(text, "{binding}");
                black_box(&text);
            }
        },
        &mut || {
            for words in lent.tables[0].chunks_exact(WIDTHS[0]) {
                black_box(raw::list_binding(chunk, &[], words, &mut out, &mut length));
            }
        },
        &mut || {
            for binding in &bindings {
                drop(black_box(binding.listed()));
            }
        },
    ]);
    line("list a binding", name, by_rust.bindings.len(), listing);

    let variables: Vec<&rdef::CBufferVariable<'_>> =
        by_rust.constant_buffers.iter().flat_map(|buffer| &buffer.variables).collect();
    let views: Vec<_> = def.constant_buffers().flat_map(|buffer| buffer.variables()).collect();
    let roots: Vec<usize> = views.iter().map(|variable| variable.var_type.index()).collect();
    let spelling = times([
        &mut || {
            for variable in &variables {
                drop(black_box(hlsl_type_name(&variable.var_type)));
            }
        },
        &mut || {
            for &root in &roots {
                let words = &lent.tables[3][root * WIDTHS[3]..][..WIDTHS[3]];
                black_box(raw::type_name(chunk, &[], words, &mut out, &mut length));
            }
        },
        &mut || {
            for variable in &views {
                drop(black_box(variable.var_type.spelling()));
            }
        },
    ]);
    line("spell a type", name, variables.len(), spelling);

    let declaring = times([
        &mut || {
            for variable in &variables {
                let spelled =
                    hlsl_type_name(&variable.var_type).map(|spelling| format!("{spelling} {};", variable.name));
                drop(black_box(spelled));
            }
        },
        &mut || {
            for (&root, words) in roots.iter().zip(lent.tables[2].chunks_exact(WIDTHS[2])) {
                let node = &lent.tables[3][root * WIDTHS[3]..][..WIDTHS[3]];
                black_box(raw::declaration(chunk, &[], node, words, &mut out, &mut length));
            }
        },
        &mut || {
            for variable in &views {
                drop(black_box(variable.declaration()));
            }
        },
    ]);
    line("declare a variable", name, variables.len(), declaring);

    let spellings: Vec<String> = variables.iter().filter_map(|variable| hlsl_type_name(&variable.var_type)).collect();
    let mut numbers = [0; 5];
    let parsing = times([
        &mut || {
            for spelling in &spellings {
                black_box(parse_hlsl_type(black_box(spelling)));
            }
        },
        &mut || {
            for spelling in &spellings {
                black_box(raw::parse_type(black_box(spelling.as_bytes()), &mut numbers));
            }
        },
        &mut || {
            for spelling in &spellings {
                let _ = black_box(nontrefalcu::parse_hlsl_type(black_box(spelling)));
            }
        },
    ]);
    line("read a spelling", name, spellings.len(), parsing);
}

//! Every code, every flag word, every form of a spelling, one after the other.

use super::examples::{binding, node, with_name};
use super::spellings::NUMBERS;
use crate::generate::texts::edges;
use crate::spelling::model::BASES;
use crate::spelling::{Buffers, Query};

pub fn queries() -> Vec<Query> {
    [spellings(), type_names(), bindings(), names()].concat()
}

fn spellings() -> Vec<Query> {
    let mut texts: Vec<String> = Vec::new();
    // What is understood.
    let sizes = ["", "1", "4", "0", "16", "65535", "4x4", "2x3", "0x0", "3x+2", "03x004"];
    for (_, base) in BASES {
        let base = String::from_utf8_lossy(base);
        for size in sizes {
            for array in ["", "[1]", "[0]", "[+3]", "[007]", "[65535]"] {
                texts.push(format!("{base}{size}{array}"));
            }
        }
    }
    // A number that may be none, in each place for a number.
    let odd =
        ["", "+", "++1", "+-1", "-1", "-0", "+0", "+65535", " 1", "1 ", "1_0", "1e1", "1.0", "\u{663}", "\u{ff11}"];
    for number in NUMBERS.iter().chain(&odd) {
        for form in ["float{}", "int{}x2", "bool2x{}", "uint[{}]", "double4x4[{}]"] {
            texts.push(form.replace("{}", number));
        }
    }
    texts.extend(FORMS.map(String::from));
    texts.into_iter().map(|text| Query::ParseType(text.into_bytes())).collect()
}

/// Missing, doubled and misplaced parts; words that are no base.
#[rustfmt::skip]
const FORMS: [&str; 84] = [
    "[", "]", "[]", "x", "+", "4", "4x4", "[3]", "x4", "3x", "float[", "float]", "float[3", "float3]", "float[3]]",
    "float[[3]", "float[[3]]", "float[3][4]", "float[3]4", "float[3]x4", "float4[3]4", "float[3x4]", "float[x]",
    "float[3]x", "float[3 ]", "float[ 3]", "float[3] ", "float[]3]", "float][3", "float]3[", "float[3]\0", "float[3\0]",
    "floatx", "floatx4", "floatx4x4", "float4x", "float4x[3]", "float4xx4", "float4x4x", "float4x4x4", "float4X4",
    "float4\u{d7}4", "float+", "float+4", "float-4", "float+4x4", "float4+x4", "float4x+", "float4x+-4", "float4x++4",
    "float4x-4", "float4 x4", "float4x 4", "float 4", "float4 ", " float", "float ", "float4\0", "\0", "Float", "FLOAT4",
    "fLoat", "half", "half4", "void", "string", "dword", "uint64_t", "min16float", "doubl", "doublee", "booll", "boo",
    "uintt", "in", "i", "u", "floatfloat", "float4float4", "float4a", "4float", "row_major float4x4", "\u{ff46}loat",
    "\u{feff}float",
];

/// Every class with every base, every variable type with some classes, members or none, named or not.
fn type_names() -> Vec<Query> {
    let mut queries = Vec::new();
    let mut both = |halves: [u32; 6]| {
        queries.push(Query::TypeName(Buffers::default(), node(halves)));
        let (buffers, words) = with_name(node(halves), 10, b"N");
        queries.push(Query::TypeName(buffers, words));
    };
    for class in (0..10).chain([255, 256, 65_535, 65_536, 65_537, 65_541, 0xffff_ffff]) {
        for var_type in [0, 1, 2, 3, 19, 39] {
            both([class, var_type, 2, 3, if var_type == 2 { 7 } else { 0 }, 0]);
        }
        both([class, 3, 1, 1, 0, 1]);
    }
    for var_type in (0..61).chain([255, 256, 259, 65_535, 65_536, 65_539, 65_555, 0x8000_0003, 0xffff_ffff]) {
        both([var_type % 4, var_type, 3, 4, 0, 0]);
    }
    for size in [0, 1, 9, 10, 99, 100, 999, 1_000, 9_999, 10_000, 65_534, 65_535, 65_536, 0xffff_ffff] {
        for field in 2..6 {
            let mut halves = [2, 3, 2, 3, 4, 0];
            halves[field] = size;
            both(halves);
        }
    }
    queries
}

/// Every input type, dimension and flag word, and numbers of every count of digits.
fn bindings() -> Vec<Query> {
    let high = [0x100, 0x1_0000, 0x1_0002, 0x8000_0000, 0xffff_ffff];
    let mut words = Vec::new();
    words.extend((0..16).chain(high).map(|input_type| [input_type, 4, 1, 1, 0]));
    words.extend((0..14).chain(high).map(|dimension| [2, dimension, 1, 1, 0]));
    words.extend((0..64).map(|flags| [3, 0, 0, 1, flags]));
    words.extend((5..32).map(|bit| [3, 0, 0, 1, 1 << bit]));
    words.extend((5..32).map(|bit| [3, 0, 0, 1, 0xffff_ffff << bit]));
    words.extend((5..32).map(|bit| [3, 0, 0, 1, 1 << bit | 1 << (bit % 5)]));
    for digits in 1..11 {
        let low = 10u32.pow(digits - 1);
        let high = low.checked_mul(10).map_or(u32::MAX, |next| next - 1);
        words.extend([low, high].map(|number| [2, 4, number, 1, 0]));
        words.extend([low, high].map(|number| [2, 4, 1, number, 4]));
    }
    let query = |words| {
        let (buffers, words) = with_name(binding(words), 0, b"t");
        Query::ListBinding(buffers, words)
    };
    words.into_iter().map(query).collect()
}

/// Names of 0 to 25 scalar values of one to four bytes, and the edges of UTF-8.
fn names() -> Vec<Query> {
    let mut names: Vec<Vec<u8>> = Vec::new();
    for scalar in ["a", "\u{e9}", "\u{20ac}", "\u{1f3ad}"] {
        names.extend((0..26).map(|count| scalar.repeat(count).into_bytes()));
        names.extend((17..22).map(|count| (scalar.repeat(count) + "z").into_bytes()));
    }
    let mut queries = Vec::new();
    for (turn, name) in names.iter().chain(&edges()).enumerate() {
        let (buffers, words) = with_name(binding([2, 4, 0, 1, 0]), 0, name);
        queries.push(Query::ListBinding(buffers, words));
        // In the spellings only some of them.
        if turn % 5 == 0 {
            let (buffers, words) = with_name(node([5, 0, 0, 0, 0, 0]), 10, name);
            queries.push(Query::TypeName(buffers, words));
        }
        if turn % 5 == 1 {
            let (buffers, words) = with_name([0; 13], 0, name);
            queries.push(Query::Declaration(buffers, node([0, 3, 1, 1, 0, 0]), words));
        }
    }
    queries
}

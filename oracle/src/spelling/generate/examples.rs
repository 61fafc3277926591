//! The examples of document 01 and of the decisions about it, each with its answer written down.

use crate::spelling::{Answer, BindingWords, Buffers, Case, Query, TypeWords, VariableWords};

#[derive(Clone)]
pub struct Example {
    pub name: String,
    pub case: Case,
    pub answer: Answer,
}

pub fn all() -> Vec<Example> {
    [texts(), type_names(), declarations(), listings(), orders()].concat()
}

/// A node without name: class, variable type, rows, columns, elements, member count.
pub fn node(halves: [u32; 6]) -> TypeWords {
    std::array::from_fn(|index| halves.get(index).copied().unwrap_or(0))
}

/// The buffers with this chunk and no edits.
pub fn in_chunk(chunk: &[u8]) -> Buffers {
    Buffers { chunk: chunk.to_vec(), edits: Vec::new() }
}

/// A record whose name is the whole chunk, in these words.
pub fn with_name<const N: usize>(mut words: [u32; N], at: usize, name: &[u8]) -> (Buffers, [u32; N]) {
    words[at..at + 3].copy_from_slice(&[0, 0, name.len() as u32]);
    (in_chunk(name), words)
}

/// A binding without name: input type, dimension, slot, count, flags; the other words are not looked at.
pub fn binding([input_type, dimension, slot, count, flags]: [u32; 5]) -> BindingWords {
    [0, 0, 0, input_type, 5, dimension, 0xffff_ffff, slot, count, flags, 7, 8]
}

fn example(name: impl Into<String>, query: Query, room: usize, answer: Answer) -> Example {
    Example { name: name.into(), case: Case { query, room }, answer }
}

fn text(text: &str) -> Answer {
    Answer { text: text.as_bytes().to_vec(), ..Answer::default() }
}

/// Spellings that are read.
fn texts() -> Vec<Example> {
    let understood: [(&str, [u32; 5]); 17] = [
        ("float4[10]", [1, 3, 1, 4, 10]),
        ("float[+3]", [0, 3, 1, 1, 3]),
        ("float4x+3", [3, 3, 4, 3, 0]),
        ("bool", [0, 1, 1, 1, 0]),
        ("int", [0, 2, 1, 1, 0]),
        ("float", [0, 3, 1, 1, 0]),
        ("uint", [0, 19, 1, 1, 0]),
        ("double", [0, 39, 1, 1, 0]),
        ("float4x4", [3, 3, 4, 4, 0]),
        ("float004", [1, 3, 1, 4, 0]),
        ("float0", [1, 3, 1, 0, 0]),
        ("float[0]", [0, 3, 1, 1, 0]),
        ("float[+0]", [0, 3, 1, 1, 0]),
        ("float0x0", [3, 3, 0, 0, 0]),
        ("float65535", [1, 3, 1, 65_535, 0]),
        ("uint65535x65535[65535]", [3, 19, 65_535, 65_535, 65_535]),
        ("float00000000000000000000000000000000000000004", [1, 3, 1, 4, 0]),
    ];
    let refused: [&[u8]; 17] = [
        b"half4",
        b"float3x",
        b"float[]",
        b"float65536",
        b"",
        b"float+4",
        b"float[-0]",
        b"float[3][4]",
        b"float[3]]",
        b"float[3",
        b"float4x3x2",
        b"floatx4",
        b"float\xd9\xa3",
        // Ill formed.
        b"float\xff",
        b"float4\xc2",
        b"float[\xed\xa0\x80]",
        b"\x80float",
    ];
    let query = |text: &[u8]| Query::ParseType(text.to_vec());
    let name = |text: &[u8]| format!("the text {}", text.escape_ascii());
    let mut examples = Vec::new();
    for (spelling, numbers) in understood {
        let answer = Answer { numbers, ..Answer::default() };
        examples.push(example(name(spelling.as_bytes()), query(spelling.as_bytes()), 0, answer));
    }
    for spelling in refused {
        examples.push(example(name(spelling), query(spelling), 0, Answer::refused(18)));
    }
    examples
}

fn type_names() -> Vec<Example> {
    let spelled = [
        ([0, 1, 1, 1, 0, 0], "bool"),
        ([0, 2, 1, 1, 0, 0], "int"),
        ([0, 3, 1, 1, 0, 0], "float"),
        ([0, 19, 1, 1, 0, 0], "uint"),
        ([0, 39, 1, 1, 0, 0], "double"),
        ([1, 3, 1, 4, 10, 0], "float4[10]"),
        ([2, 3, 3, 4, 0, 0], "float3x4"),
        ([3, 3, 4, 4, 0, 0], "float4x4"),
        ([3, 19, 65_535, 65_535, 65_535, 0], "uint65535x65535[65535]"),
        ([1, 2, 9, 0, 0, 0], "int0"),
    ];
    let mut examples = Vec::new();
    for (halves, spelling) in spelled {
        let query = Query::TypeName(Buffers::default(), node(halves));
        examples.push(example(spelling, query, spelling.len(), text(spelling)));
    }
    // Members or class 5: the name alone, whatever the elements.
    for halves in [[5, 0, 1, 1, 0, 0], [5, 3, 1, 4, 10, 0], [0, 3, 1, 1, 3, 1], [4, 0, 0, 0, 0, 65_535]] {
        let (buffers, words) = with_name(node(halves), 10, b"Light");
        examples.push(example(format!("named {halves:?}"), Query::TypeName(buffers, words), 9, text("Light")));
        let query = Query::TypeName(Buffers::default(), node(halves));
        examples.push(example(format!("without a name {halves:?}"), query, 9, Answer::refused(18)));
    }
    // No spelling: class 4 and the like, whatever the name; variable types that have none.
    for halves in [[4, 3, 1, 1, 0, 0], [6, 3, 1, 1, 0, 0], [0, 0, 1, 1, 0, 0], [1, 20, 1, 4, 0, 0]] {
        let (buffers, words) = with_name(node(halves), 10, b"Light");
        examples.push(example(format!("{halves:?}"), Query::TypeName(buffers, words), 9, Answer::refused(18)));
    }
    examples
}

fn declarations() -> Vec<Example> {
    let float4_10 = node([1, 3, 1, 4, 10, 0]);
    let (buffers, variable): (Buffers, VariableWords) = with_name([9; 13], 0, b"glyphs");
    let line = "float4[10] glyphs;";
    let query = Query::Declaration(buffers, float4_10, variable);
    let mut out = vec![example(line, query.clone(), line.len(), text(line))];
    out.push(example("a declaration into a byte less", query, line.len() - 1, Answer::refused(17)));
    // The type's name in the chunk, the variable's in the edits.
    let buffers = Buffers { chunk: b"..Light".to_vec(), edits: b"key\0".to_vec() };
    let mut light = node([5, 0, 1, 1, 0, 2]);
    light[10..13].copy_from_slice(&[0, 2, 5]);
    let mut key = [0; 13];
    key[..3].copy_from_slice(&[1, 0, 3]);
    out.push(example("Light key;", Query::Declaration(buffers, light, key), 40, text("Light key;")));
    let empty = Query::Declaration(Buffers::default(), node([0, 3, 1, 1, 0, 0]), [0; 13]);
    out.push(example("a variable without a name", empty, 7, text("float ;")));
    out
}

fn listings() -> Vec<Example> {
    let lines: [(&[u8], [u32; 5], &str); 8] = [
        (b"tint", [2, 4, 0, 1, 0xc], "tint                 texture      2d       0    1     texComp0;texComp1"),
        (b"$Globals", [0, 0, 0, 1, 1], "$Globals             cbuffer      NA       0    1     userPacked"),
        (b"smp", [3, 0, 15, 2, 2], "smp                  sampler      NA       15   2     comparisonSampler"),
        // The last column is padded too.
        (b"buffer", [7, 1, 3, 1, 0], "buffer               byteaddress  buf      3    1    "),
        // Nothing is cut.
        (
            b"a_name_of_more_than_20",
            [11, 10, 12_345, 4_294_967_295, 0x1f],
            "a_name_of_more_than_20 uav_rwstructured_with_counter cubearray 12345 4294967295 \
             userPacked;comparisonSampler;texComp0;texComp1;unused",
        ),
        // Codes and flags beyond the tables.
        (b"x", [14, 12, 0, 0, 0xffe0], "x                    unknown      NA       0    0     0xffe0"),
        (b"x", [14, 12, 0, 0, 0x30], "x                    unknown      NA       0    0     unused"),
        // Five scalar values in eleven bytes.
        (
            "h\u{f6}\u{20ac}\u{1d11e}\u{3c9}".as_bytes(),
            [12, 9, 1, 1, 0],
            "h\u{f6}\u{20ac}\u{1d11e}\u{3c9}                rt_acceleration_structure cube     1    1    ",
        ),
    ];
    let mut examples = Vec::new();
    for (name, words, line) in lines {
        let (buffers, words) = with_name(binding(words), 0, name);
        let query = Query::ListBinding(buffers, words);
        examples.push(example(line, query.clone(), line.len(), text(line)));
        examples.push(example(format!("{line} into a byte less"), query, line.len() - 1, Answer::refused(17)));
    }
    examples
}

/// 16 precedes 18, and 18 precedes 17. A name counts for 16 whether it is printed or not.
fn orders() -> Vec<Example> {
    let chunk = in_chunk(b"ab\xff");
    let named = |mut node: TypeWords, name: [u32; 3]| {
        node[10..13].copy_from_slice(&name);
        node
    };
    let (float, object) = (node([0, 3, 1, 1, 0, 0]), node([4, 3, 1, 1, 0, 0]));
    let (outside, ill_formed, good) = ([0, 4, 0], [0, 1, 2], [0, 0, 2]);
    let type_name = |node| Query::TypeName(chunk.clone(), node);
    let mut cases = vec![
        ("class 4", type_name(object), 0, 18),
        ("int into 2 bytes", type_name(node([0, 2, 1, 1, 0, 0])), 2, 17),
        ("class 4, name out of place", type_name(named(object, outside)), 0, 16),
        ("float, name out of place", type_name(named(float, outside)), 0, 16),
        ("float, name not UTF-8", type_name(named(float, ill_formed)), 9, 16),
        ("float, name of source 2", type_name(named(float, [2, 0, 0])), 9, 16),
        ("float, name of wrapping length", type_name(named(float, [0, 1, 0xffff_ffff])), 9, 16),
    ];
    for (index, field) in ["class", "variable type", "rows", "columns", "elements", "members"].iter().enumerate() {
        let mut great = float;
        great[index] += 65_536;
        cases.push((field, type_name(great), 0, 16));
    }
    let declared = |node: TypeWords, name: [u32; 3]| {
        let mut variable = [0; 13];
        variable[..3].copy_from_slice(&name);
        Query::Declaration(chunk.clone(), node, variable)
    };
    cases.push(("class 4, variable's name out of place", declared(object, outside), 0, 16));
    cases.push(("class 4, variable's name not UTF-8", declared(object, ill_formed), 9, 16));
    cases.push(("float, type's name out of place, declared", declared(named(float, outside), good), 20, 16));
    cases.push(("class 4, declared into nothing", declared(object, good), 0, 18));
    cases.push(("float, declared into nothing", declared(float, good), 0, 17));
    let listed = |name: [u32; 3]| {
        let mut words = binding([2, 4, 0, 1, 0]);
        words[..3].copy_from_slice(&name);
        Query::ListBinding(chunk.clone(), words)
    };
    cases.push(("a binding's name out of place", listed(outside), 0, 16));
    cases.push(("a binding's name not UTF-8", listed(ill_formed), 90, 16));
    cases.push(("a binding into nothing", listed(good), 0, 17));
    let all = cases.into_iter();
    all.map(|(name, query, room, number)| example(name, query, room, Answer::refused(number))).collect()
}

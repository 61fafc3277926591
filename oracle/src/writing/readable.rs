//! Readable, as document 01 lists it under "What a reflection holds". It shares nothing with rdef.rs.

use super::{Held, LONGEST};
use crate::tables::{BINDING_WORDS, BUFFER_WORDS, LIMITS, TYPE_WORDS, VARIABLE_WORDS, WIDTHS};
use crate::utf8::well_formed;

/// The parts of document 01's list.
#[derive(Clone, Copy, PartialEq, Eq, PartialOrd, Ord, Debug)]
pub enum Clause {
    /// Both buffers at most 65,536 bytes.
    Buffers,
    /// Places inside them.
    Places,
    /// Counts that match the records held.
    Counts,
    /// Major 4 or 5.
    Major,
    /// RD11 words as read, and only with major 5.
    Rd11,
    /// Codes as in 8 to 10.
    Codes,
    /// Space and id 0 for stride 32.
    Space,
    /// Names and creator UTF-8 without NUL.
    Names,
    /// 16-bit fields below 65,536.
    Halves,
    /// A default empty or of its variable's size.
    Default,
    /// Depth at most 64.
    Depth,
    /// Room kept.
    Room,
    /// For major 4, types without name or extra words and variables without slots.
    Major4,
}

pub const CLAUSES: [Clause; 13] = [
    Clause::Buffers,
    Clause::Places,
    Clause::Counts,
    Clause::Major,
    Clause::Rd11,
    Clause::Codes,
    Clause::Space,
    Clause::Names,
    Clause::Halves,
    Clause::Default,
    Clause::Depth,
    Clause::Room,
    Clause::Major4,
];

/// Whether the reflection is readable, or a part of the list that it breaks. Counts come first: they say
/// which words are looked at.
pub fn readable(held: &Held) -> Result<(), Clause> {
    check(held.chunk.len() <= LONGEST && held.edits.len() <= LONGEST, Clause::Buffers)?;
    for table in 0..4 {
        check(held.count(table) <= held.words.tables()[table].len() / WIDTHS[table], Clause::Counts)?;
        check(held.count(table) <= LIMITS[table], Clause::Room)?;
    }
    let roots = trees(held)?;
    let [bindings, buffers, variables, types] = records(held);
    let counted: u64 = buffers.iter().map(|buffer| u64::from(buffer[3])).sum();
    check(counted == variables.len() as u64, Clause::Counts)?;

    let [version, _, creator @ .., identifier, stride, slots] = &held.words.header[..8] else {
        unreachable!("eight words");
    };
    let major = version >> 8 & 0xff;
    check(major == 4 || major == 5, Clause::Major)?;
    let allowed = match major {
        4 => [*identifier, *stride, *slots] == [0; 3],
        _ => [0x3131_4452, 0x2544_1313].contains(identifier) && [32, 40].contains(stride),
    };
    check(allowed, Clause::Rd11)?;
    name(held, creator)?;
    for binding in bindings {
        check(binding[3] <= 13 && binding[5] <= 11 && binding[9] <= 0x1f, Clause::Codes)?;
        check(*stride == 40 || binding[10..12] == [0, 0], Clause::Space)?;
        name(held, &binding[..3])?;
    }
    for buffer in buffers {
        name(held, &buffer[..3])?;
    }
    for variable in variables {
        name(held, &variable[..3])?;
        held.text(&variable[6..9]).ok_or(Clause::Places)?;
        check(variable[8] == 0 || variable[8] == variable[4], Clause::Default)?;
        check(major == 5 || variable[9..13] == [0; 4], Clause::Major4)?;
    }
    for (index, node) in types.iter().enumerate() {
        check(node[..6].iter().all(|&field| field < 65_536), Clause::Halves)?;
        check(major == 5 || (node[6..10] == [0; 4] && node[12] == 0), Clause::Major4)?;
        name(held, &node[10..13])?;
        // What a root would be as a member is no field of a reflection.
        if roots.binary_search(&index).is_err() {
            name(held, &node[13..16])?;
        }
    }
    Ok(())
}

fn check(holds: bool, clause: Clause) -> Result<(), Clause> {
    if holds {
        Ok(())
    } else {
        Err(clause)
    }
}

fn name(held: &Held, text: &[u32]) -> Result<(), Clause> {
    let bytes = held.text(text).ok_or(Clause::Places)?;
    check(!bytes.contains(&0) && well_formed(bytes), Clause::Names)
}

/// The records that the header counts, where each table holds so many.
fn records(held: &Held) -> [Vec<&[u32]>; 4] {
    let widths = [BINDING_WORDS, BUFFER_WORDS, VARIABLE_WORDS, TYPE_WORDS];
    std::array::from_fn(|table| {
        held.words.tables()[table].chunks_exact(widths[table]).take(held.count(table)).collect()
    })
}

/// The nodes must be exactly as many trees as there are variables; the answer is where each begins.
fn trees(held: &Held) -> Result<Vec<usize>, Clause> {
    let (nodes, mut next) = (held.count(3), 0);
    let mut roots = Vec::new();
    for _ in 0..held.count(2) {
        roots.push(next);
        // How many members are left of each type on the path; there are as many levels above the next node.
        let mut path: Vec<u32> = Vec::new();
        loop {
            check(path.len() <= 64, Clause::Depth)?;
            check(next < nodes, Clause::Counts)?;
            path.push(held.words.types[next * TYPE_WORDS + 5]);
            next += 1;
            while path.last() == Some(&0) {
                path.pop();
                if let Some(left) = path.last_mut() {
                    *left -= 1;
                }
            }
            if path.is_empty() {
                break;
            }
        }
    }
    check(next == nodes, Clause::Counts)?;
    Ok(roots)
}

//! Spelling and listing written plainly from document 01. It shares nothing with rdef.rs.

use super::Speller;
use crate::utf8::well_formed;

pub struct Model;

/// The variable types that have a spelling.
pub const BASES: [(u32, &[u8]); 5] = [(1, b"bool"), (2, b"int"), (3, b"float"), (19, b"uint"), (39, b"double")];

/// The listed names of input types 0 to 13.
const INPUT_TYPES: [&[u8]; 14] = [
    b"cbuffer",
    b"tbuffer",
    b"texture",
    b"sampler",
    b"uav_rwtyped",
    b"structured",
    b"uav_rwstructured",
    b"byteaddress",
    b"uav_rwbyteaddress",
    b"uav_append_structured",
    b"uav_consume_structured",
    b"uav_rwstructured_with_counter",
    b"rt_acceleration_structure",
    b"uav_feedback_texture",
];

/// The listed names of dimensions 0 to 11.
const DIMENSIONS: [&[u8]; 12] = [
    b"NA",
    b"buf",
    b"1d",
    b"1darray",
    b"2d",
    b"2darray",
    b"2dMS",
    b"2dMSarray",
    b"3d",
    b"cube",
    b"cubearray",
    b"bufex",
];

/// The listed names of flag bits 0 to 4.
const FLAGS: [&[u8]; 5] = [b"userPacked", b"comparisonSampler", b"texComp0", b"texComp1", b"unused"];

impl Speller for Model {
    fn type_name(&self, chunk: &[u8], edits: &[u8], node: &[u32]) -> Result<Vec<u8>, u32> {
        check(node[..6].iter().all(|&field| field < 65_536), 16)?;
        let name = name(chunk, edits, &node[10..13])?;
        spelling(node, name)
    }

    fn declaration(&self, chunk: &[u8], edits: &[u8], node: &[u32], variable: &[u32]) -> Result<Vec<u8>, u32> {
        check(node[..6].iter().all(|&field| field < 65_536), 16)?;
        let type_name = name(chunk, edits, &node[10..13])?;
        let name = name(chunk, edits, &variable[..3])?;
        Ok([&spelling(node, type_name)?, &b" "[..], name, b";"].concat())
    }

    fn parse_type(&self, text: &[u8]) -> Result<[u32; 5], u32> {
        check(well_formed(text), 18)?;
        let (core, elements) = match split(text, b'[') {
            None => (text, 0),
            Some((core, [inside @ .., b']'])) => (core, number(inside)?),
            Some(_) => return Err(18),
        };
        // No base begins another, so at most one fits.
        let (base, sizes) = BASES.iter().find_map(|base| Some((base.0, core.strip_prefix(base.1)?))).ok_or(18u32)?;
        let Some(first) = sizes.first() else {
            return Ok([0, base, 1, 1, elements]);
        };
        // A sign may stand after `[` and after `x`, not after the base.
        check(first.is_ascii_digit(), 18)?;
        match split(sizes, b'x') {
            None => Ok([1, base, 1, number(sizes)?, elements]),
            Some((rows, columns)) => Ok([3, base, number(rows)?, number(columns)?, elements]),
        }
    }

    fn list_binding(&self, chunk: &[u8], edits: &[u8], binding: &[u32]) -> Result<Vec<u8>, u32> {
        let name = name(chunk, edits, &binding[..3])?;
        let known = |table: &[&'static [u8]], code: u32| table.get(code as usize).copied();
        let mut line = Vec::new();
        column(&mut line, name, 20);
        column(&mut line, known(&INPUT_TYPES, binding[3]).unwrap_or(b"unknown"), 12);
        column(&mut line, known(&DIMENSIONS, binding[5]).unwrap_or(b"NA"), 8);
        column(&mut line, &digits(binding[7], 10), 4);
        column(&mut line, &digits(binding[8], 10), 5);
        // The last column has no space behind it.
        line.pop();
        let flags = binding[9];
        if flags != 0 {
            let named: Vec<&[u8]> = (0..5).filter(|bit| flags >> bit & 1 == 1).map(|bit| FLAGS[bit]).collect();
            line.push(b' ');
            line.extend(if named.is_empty() { [b"0x", &digits(flags, 16)[..]].concat() } else { named.join(&b';') });
        }
        Ok(line)
    }
}

fn check(holds: bool, number: u32) -> Result<(), u32> {
    if holds {
        Ok(())
    } else {
        Err(number)
    }
}

/// The bytes of the name with this source, place and length, if it is in place and UTF-8.
fn name<'a>(chunk: &'a [u8], edits: &'a [u8], words: &[u32]) -> Result<&'a [u8], u32> {
    check(words[0] <= 1, 16)?;
    let buffer = if words[0] == 0 { chunk } else { edits };
    // The sum is of 64 bits: it does not wrap.
    let end = u64::from(words[1]) + u64::from(words[2]);
    check(end <= buffer.len() as u64, 16)?;
    let name = &buffer[words[1] as usize..end as usize];
    check(well_formed(name), 16)?;
    Ok(name)
}

fn spelling(node: &[u32], name: &[u8]) -> Result<Vec<u8>, u32> {
    let [class, var_type, rows, columns, elements, member_count] = std::array::from_fn(|index| node[index]);
    if member_count > 0 || class == 5 {
        check(!name.is_empty(), 18)?;
        return Ok(name.to_vec());
    }
    let mut text = BASES.iter().find(|base| base.0 == var_type).ok_or(18u32)?.1.to_vec();
    match class {
        0 => {}
        1 => text.extend(digits(columns, 10)),
        2 | 3 => text.extend([&digits(rows, 10)[..], b"x", &digits(columns, 10)].concat()),
        _ => return Err(18),
    }
    if elements > 0 {
        text.extend([b"[", &digits(elements, 10)[..], b"]"].concat());
    }
    Ok(text)
}

/// What stands before and after the first such byte.
fn split(text: &[u8], at: u8) -> Option<(&[u8], &[u8])> {
    let place = text.iter().position(|&byte| byte == at)?;
    Some((&text[..place], &text[place + 1..]))
}

/// A number of 16 bits: a `+` or none, then digits, at least one.
fn number(text: &[u8]) -> Result<u32, u32> {
    let digits = text.strip_prefix(b"+").unwrap_or(text);
    check(!digits.is_empty() && digits.iter().all(u8::is_ascii_digit), 18)?;
    // 65,536 stands for all that is greater.
    let value = digits.iter().fold(0, |value, digit| (10 * value + u32::from(digit - b'0')).min(65_536));
    check(value < 65_536, 18)?;
    Ok(value)
}

/// The number without leading zeros, letters in lower case.
fn digits(number: u32, radix: u32) -> Vec<u8> {
    let mut rest = number;
    let mut digits = vec![b"0123456789abcdef"[(rest % radix) as usize]];
    while rest >= radix {
        rest /= radix;
        digits.insert(0, b"0123456789abcdef"[(rest % radix) as usize]);
    }
    digits
}

/// The text, spaces up to so many scalar values, and one more.
fn column(line: &mut Vec<u8>, text: &[u8], width: usize) {
    // Each scalar value has just one byte that is no continuation byte.
    let scalars = text.iter().filter(|&&byte| byte & 0xc0 != 0x80).count();
    line.extend(text);
    line.extend(vec![b' '; width.saturating_sub(scalars) + 1]);
}

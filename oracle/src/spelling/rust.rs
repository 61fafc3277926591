//! The answers of rdef.rs itself. Where it has no such case, document 01's number: 16 for a name out of
//! place or not UTF-8 and for a field of more than 16 bits, 18 for a text that is not UTF-8.

use super::Speller;
use crate::rdef::{hlsl_type_name, parse_hlsl_type, MemberDesc, ResourceBinding, TypeDesc};
use std::borrow::Cow;

pub struct Rust;

impl Speller for Rust {
    fn type_name(&self, chunk: &[u8], edits: &[u8], node: &[u32]) -> Result<Vec<u8>, u32> {
        let desc = type_desc(chunk, edits, node)?;
        Ok(hlsl_type_name(&desc).ok_or(18u32)?.into_bytes())
    }

    /// rdef.rs spells the type; the rest of the line is document 01's.
    fn declaration(&self, chunk: &[u8], edits: &[u8], node: &[u32], variable: &[u32]) -> Result<Vec<u8>, u32> {
        let desc = type_desc(chunk, edits, node)?;
        let name = name(chunk, edits, &variable[..3])?;
        let spelling = hlsl_type_name(&desc).ok_or(18u32)?;
        Ok(format!("{spelling} {name};").into_bytes())
    }

    fn parse_type(&self, text: &[u8]) -> Result<[u32; 5], u32> {
        let text = std::str::from_utf8(text).map_err(|_| 18u32)?;
        let (class, base, rows, columns, elements) = parse_hlsl_type(text).ok_or(18u32)?;
        Ok([class, base, rows, columns, elements].map(u32::from))
    }

    fn list_binding(&self, chunk: &[u8], edits: &[u8], binding: &[u32]) -> Result<Vec<u8>, u32> {
        let name = Cow::Borrowed(name(chunk, edits, &binding[..3])?);
        let &[input_type, return_type, dimension, num_samples, bind_point, bind_count, flags, space, id] =
            <&[u32; 9]>::try_from(&binding[3..]).expect("the words of a binding");
        let binding = ResourceBinding {
            name,
            input_type,
            return_type,
            dimension,
            num_samples,
            bind_point,
            bind_count,
            flags,
            space,
            id,
        };
        Ok(binding.to_string().into_bytes())
    }
}

/// The name with this source, place and length.
fn name<'a>(chunk: &'a [u8], edits: &'a [u8], words: &[u32]) -> Result<&'a str, u32> {
    let [source, place, length] = [words[0], words[1], words[2]].map(|word| word as usize);
    let buffer = [chunk, edits].get(source).copied().ok_or(16u32)?;
    let part = buffer.get(place..).and_then(|tail| tail.get(..length)).ok_or(16u32)?;
    std::str::from_utf8(part).map_err(|_| 16)
}

/// The node as rdef.rs has it. It spells any number of members alike, so one stands for all.
fn type_desc<'a>(chunk: &'a [u8], edits: &'a [u8], node: &[u32]) -> Result<TypeDesc<'a>, u32> {
    let half = |index: usize| u16::try_from(node[index]).map_err(|_| 16u32);
    let leaf = TypeDesc {
        class: half(0)?,
        var_type: half(1)?,
        rows: half(2)?,
        columns: half(3)?,
        elements: half(4)?,
        members: Vec::new(),
        sm5_extra: Some([node[6], node[7], node[8], node[9]]),
        name: Cow::Borrowed(name(chunk, edits, &node[10..13])?),
    };
    if half(5)? == 0 {
        return Ok(leaf);
    }
    let member = MemberDesc { name: Cow::Borrowed("member"), member_type: leaf.clone(), offset: 0 };
    Ok(TypeDesc { members: vec![member], ..leaf })
}

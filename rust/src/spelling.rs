//! Spellings of types, and texts that the library writes.

use crate::layout::LONGEST_OUTPUT;
use crate::{raw, Refusal, TypeDesc};

/// The spelling of a type, as `float4[10]`.
///
/// # Errors
///
/// 18 where it has none.
#[inline]
pub fn hlsl_type_name(desc: &TypeDesc<'_>) -> Result<String, Refusal> {
    desc.spelling()
}

/// Class, base, rows, columns and elements of a spelling. A matrix comes back as class 3.
///
/// # Errors
///
/// 18 where the text spells no type.
#[inline]
pub fn parse_hlsl_type(text: &str) -> Result<(u16, u16, u16, u16, u16), Refusal> {
    let mut numbers = [0; 5];
    Refusal::of(raw::parse_type(text.as_bytes(), &mut numbers))?;
    // Each of them fits 16 bits.
    let [class, base, rows, columns, elements] = numbers.map(|number| number as u16);
    Ok((class, base, rows, columns, elements))
}

/// Hands the text that a linked function writes to `then`: into few bytes first, and where they do not hold it, into as many as are ever written.
pub(crate) fn written<T>(
    write: impl Fn(&mut [u8], &mut [u32]) -> u32,
    then: impl FnOnce(&str) -> T,
) -> Result<T, Refusal> {
    let (mut few, mut length) = ([0; 256], [0]);
    match write(&mut few, &mut length) {
        17 => {
            let mut all = vec![0; LONGEST_OUTPUT];
            Refusal::of(write(&mut all, &mut length))?;
            Ok(then(text(&all[..length[0] as usize])))
        }
        number => {
            Refusal::of(number)?;
            Ok(then(text(&few[..length[0] as usize])))
        }
    }
}

/// Bytes that are UTF-8, since the library has tested them or written them.
pub(crate) fn text(bytes: &[u8]) -> &str {
    std::str::from_utf8(bytes).unwrap_or_default()
}

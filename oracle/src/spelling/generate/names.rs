//! Names for spelling and listing, and where they lie: in the chunk, in the edits, or out of place.

use crate::generate::rng::Rng;
use crate::generate::texts::{self, identifier, scalar};
use crate::spelling::Buffers;

/// A name: plain, empty, of any scalar values, around the width of its column, with a NUL, or ill formed.
pub fn name(edges: &[Vec<u8>], rng: &mut Rng) -> Vec<u8> {
    match rng.below(16) {
        0 => Vec::new(),
        1..=4 => texts::name(rng),
        5..=7 => scalars(rng, 17, 23),
        8 => scalars(rng, 1, 60),
        9 | 10 => identifier(rng, 17, 23),
        11 => identifier(rng, 24, 60),
        12 => {
            let mut name = texts::name(rng);
            name.insert(rng.below(name.len() + 1), rng.pick(b"\0\0 ;[\n\x7f"));
            name
        }
        13 | 14 => texts::doubtful(rng),
        _ => edges[rng.below(edges.len())].clone(),
    }
}

/// So many scalar values: all of one to four bytes, or plain letters with some among them.
fn scalars(rng: &mut Rng, least: usize, most: usize) -> Vec<u8> {
    let plain = rng.one_in(3);
    let one = |rng: &mut Rng| if plain && !rng.one_in(5) { identifier(rng, 1, 1) } else { scalar(rng) };
    (0..rng.between(least, most)).flat_map(|_| one(rng)).collect()
}

/// Puts the name into one of the buffers, behind what is there. Gives its source, place and length.
pub fn put(buffers: &mut Buffers, name: &[u8], rng: &mut Rng) -> [u32; 3] {
    let source = rng.below(2);
    let buffer = if source == 0 { &mut buffers.chunk } else { &mut buffers.edits };
    fill(buffer, rng);
    let place = buffer.len();
    buffer.extend(name);
    [source as u32, place as u32, name.len() as u32]
}

/// Some bytes that would end a name or carry it on, or none.
pub fn fill(buffer: &mut Vec<u8>, rng: &mut Rng) {
    for _ in 0..rng.pick(&[0, 0, 0, 1, 2, 7]) {
        buffer.push(rng.pick(&[0, b'a', b'0', 0x80, 0xbf, 0xc3, 0xe2, 0xf0, 0xff]));
    }
}

/// Other words for a name: mostly out of place by little, by much or only if a sum wraps; now and then
/// in place still, at another part.
pub fn misplace(words: &mut [u32], buffers: &Buffers, rng: &mut Rng) {
    let [source, place, length] = [words[0], words[1], words[2]];
    let end = if source == 0 { buffers.chunk.len() } else { buffers.edits.len() } as u32;
    let (one_or_none, some) = (rng.below(2) as u32, rng.below(end as usize + 1) as u32);
    let new = match rng.below(12) {
        0 | 1 => [rng.pick_or_word(&[2, 3, 0x100, 0x101, 0x1_0000, 0x8000_0000, 0xffff_ffff]), place, length],
        2 => [source ^ 1, place, length],
        // The empty text at the end, or just behind it; the last byte, or the one behind it.
        3 => [source, end + one_or_none, 0],
        4 => [source, end.saturating_sub(1) + one_or_none, 1],
        // To the end, or a byte more.
        5 => [source, place, end - place + one_or_none],
        6 => [source, place, end - place + 1],
        // Sums that come out small if they wrap.
        7 => [source, place, some.wrapping_sub(place)],
        8 => [source, some.wrapping_sub(length), length],
        // A part of the name, which may cut a sequence.
        9 => [source, place + length.min(1), length.saturating_sub(1)],
        10 => [source, place, length.saturating_sub(1 + one_or_none)],
        _ => {
            let mut flipped = [source, place, length];
            flipped[rng.below(3)] ^= 1 << rng.below(32);
            flipped
        }
    };
    words.copy_from_slice(&new);
}

//! Names, well formed and not.

use super::rng::Rng;
use crate::utf8::ROWS;

/// A name: mostly a plain identifier, now and then empty or of sequences of up to four bytes.
pub fn name(rng: &mut Rng) -> Vec<u8> {
    match rng.below(16) {
        0 => Vec::new(),
        1 | 2 => (0..rng.between(1, 4)).flat_map(|_| scalar(rng)).collect(),
        3 => rng.pick::<&[u8]>(&[b"$Globals", b"fade", b"tint", b"x", b"smp"]).to_vec(),
        _ => identifier(rng, 1, 9),
    }
}

pub fn identifier(rng: &mut Rng, least: usize, most: usize) -> Vec<u8> {
    let letters = b"abcdefghijklmnopqrstuvwxyzABCDEFGHIJKLMNOPQRSTUVWXYZ_0123456789";
    let length = rng.between(least, most);
    (0..length).map(|index| letters[rng.below(if index == 0 { 53 } else { 63 })]).collect()
}

/// One sequence of a random row of table 3-7, without NUL.
pub fn scalar(rng: &mut Rng) -> Vec<u8> {
    let row = rng.pick(&ROWS);
    row.iter().map(|&(low, high)| rng.between(usize::from(low), usize::from(high)).max(1) as u8).collect()
}

/// The edges of table 3-7: in each row each byte at its lowest and highest, one below and one above,
/// and each row cut short. Which of them are well formed is for the readers to say.
pub fn edges() -> Vec<Vec<u8>> {
    let mut edges: Vec<Vec<u8>> = Vec::new();
    for row in ROWS {
        let lowest: Vec<u8> = row.iter().map(|range| range.0.max(1)).collect();
        let highest: Vec<u8> = row.iter().map(|range| range.1).collect();
        for (index, &(low, high)) in row.iter().enumerate() {
            for byte in [low.wrapping_sub(1), low, high, high.wrapping_add(1)] {
                for whole in [&lowest, &highest] {
                    let mut edge = whole.clone();
                    edge[index] = byte;
                    edges.push(edge);
                }
            }
            // Cut before this byte, at the text's end and before a plain letter.
            let cut = highest[..index].to_vec();
            edges.push([&cut[..], b"z"].concat());
            edges.push(cut);
        }
        // A good start does not save what follows it, nor a good end what stands before.
        edges.push([b"ab", &lowest[..], b"c", &highest[..]].concat());
        edges.push([&lowest[..], &highest[..row.len() - 1], b"y"].concat());
    }
    for odd in [0x80, 0xbf, 0xc0, 0xc1, 0xf5, 0xfe, 0xff] {
        edges.push(vec![odd]);
        edges.push(vec![odd, 0x80, 0x80, 0x80]);
        edges.push(vec![b'a', odd, b'b']);
    }
    for edge in &mut edges {
        edge.retain(|&byte| byte != 0);
    }
    edges.sort();
    edges.dedup();
    edges
}

/// A text that is likely, not certain, to be ill formed.
pub fn doubtful(rng: &mut Rng) -> Vec<u8> {
    let mut text = name(rng);
    for _ in 0..rng.between(1, 2) {
        let at = rng.below(text.len() + 1);
        match rng.below(4) {
            0 => text.insert(at, rng.between(0x80, 0xff) as u8),
            1 => {
                let row = rng.pick(&ROWS[1..]);
                let (index, mut bytes) = (rng.below(row.len()), Vec::new());
                bytes.extend(row.iter().map(|&(low, high)| rng.pick(&[low, high])));
                bytes[index] = rng.pick(&[row[index].0.wrapping_sub(1), row[index].1.wrapping_add(1)]);
                text.splice(at..at, bytes);
            }
            2 => {
                let whole = scalar(rng);
                let kept = rng.below(whole.len() + 1);
                text.splice(at..at, whole[..kept].iter().copied());
            }
            _ => text.splice(at..at, scalar(rng)).for_each(drop),
        }
    }
    text.retain(|&byte| byte != 0);
    text
}

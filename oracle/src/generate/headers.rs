//! The boundaries of length, version, creator and RD11 words: refusals 1 to 6.

use super::fixed::{blank, put, Fixed};
use super::plan::{rd11, RD11, SM5_1};

pub fn cases() -> Vec<Fixed> {
    [lengths(), headers()].concat()
}

fn lengths() -> Vec<Fixed> {
    let mut cases = Vec::new();
    for length in [0, 1, 15, 16, 19, 20, 26, 27] {
        cases.push(Fixed::new(format!("length {length}"), blank(4, length), 1));
        cases.push(Fixed::new(format!("length {length}, all ones"), vec![0xff; length], 1));
    }
    for (major, length, number) in
        [(4, 28, 0), (4, 29, 0), (5, 28, 5), (5, 31, 5), (5, 32, 5), (5, 58, 5), (5, 59, 5), (5, 60, 0), (5, 61, 0)]
    {
        cases.push(Fixed::new(format!("major {major}, length {length}"), blank(major, length), number));
    }
    cases.push(Fixed::new("major 4, length 65,536", blank(4, 65_536), 0));
    cases.push(Fixed::new("major 5, length 65,536", blank(5, 65_536), 0).not_stored());
    cases.push(Fixed::new("a name of 65,475 bytes", longest_name(), 0).not_stored());
    for (major, length) in [(4, 65_537), (5, 65_537), (3, 65_537), (4, 70_000), (5, 131_072)] {
        cases.push(Fixed::new(format!("major {major}, length {length}"), blank(major, length), 2).not_stored());
    }
    cases
}

/// The longest name that a chunk can hold.
fn longest_name() -> Vec<u8> {
    let mut bytes = blank(4, 65_536);
    bytes[60..65_535].fill(b'n');
    for (at, word) in [(8, 1), (12, 28), (28, 60)] {
        put(&mut bytes, at, word);
    }
    bytes
}

fn headers() -> Vec<Fixed> {
    let mut cases = Vec::new();
    for (version, number) in [
        (0x300, 3),
        (0x400, 0),
        (0x500, 0),
        (0x600, 3),
        (0x4, 3),
        (0x5_0000, 3),
        (0x400_0000, 3),
        (0x1400, 3),
        (0x8400, 3),
        (0x8500, 3),
    ]
    .into_iter()
    .chain([
        (0xffff_03ff, 3),
        (0xffff_04ff, 0),
        (0xffff_05ff, 0),
        (0xffff_06ff, 3),
        (0xffff_ffff, 3),
        (0x1_0400, 0),
        (0xfffe_0501, 0),
    ]) {
        let mut bytes = blank(5, 60);
        put(&mut bytes, 16, version);
        cases.push(Fixed::new(format!("version {version:#x}"), bytes, number));
    }
    for major in [4, 5] {
        for (offset, number) in [
            (0, 0),
            (3, 0),
            (24, 0),
            (61, 0),
            (63, 0),
            (64, 4),
            (65, 4),
            (0x7fff_ffff, 4),
            (0x8000_0000, 4),
            (0xffff_ffff, 4),
        ] {
            let mut bytes = blank(major, 64);
            put(&mut bytes, 24, offset);
            cases.push(Fixed::new(format!("major {major}, creator at {offset:#x} of 64"), bytes.clone(), number));
            bytes[63] = b'x';
            let number = if offset == 63 { 4 } else { number };
            cases.push(Fixed::new(format!("major {major}, creator at {offset:#x}, no NUL at the end"), bytes, number));
        }
    }
    for identifier in [RD11, SM5_1] {
        for stride in [32, 40] {
            for slots in [0, 1, 0xffff_ffff] {
                cases.push(with_rd11(rd11(identifier, stride, slots), 0));
            }
        }
    }
    for (index, right) in rd11(RD11, 32, 0).into_iter().enumerate().take(7) {
        for wrong in [
            0,
            right - 1,
            right + 1,
            right ^ 0x100,
            right ^ 0x1_0000,
            right ^ 0x8000_0000,
            0xffff_ffff,
            36,
            0x2544_1312,
            0x2544_1314,
        ] {
            let mut words = rd11(RD11, 32, 0);
            words[index] = wrong;
            cases.push(with_rd11(words, if wrong == right { 0 } else { 6 }));
        }
    }
    for stride in [31, 33, 36, 39, 41, 44, 48, 80] {
        cases.push(with_rd11(rd11(SM5_1, stride, 0), 6));
    }
    // Major 4 has no RD11 words: what stands there is free.
    cases.push(Fixed::new(
        "major 4, words behind the header",
        {
            let mut bytes = blank(4, 60);
            bytes[28..].fill(0xff);
            bytes
        },
        0,
    ));
    cases
}

fn with_rd11(words: [u32; 8], number: u32) -> Fixed {
    let mut bytes = blank(5, 60);
    for (index, word) in words.into_iter().enumerate() {
        put(&mut bytes, 28 + 4 * index, word);
    }
    Fixed::new(format!("RD11 {words:x?}"), bytes, number)
}

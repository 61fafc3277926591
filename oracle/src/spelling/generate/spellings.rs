//! Spellings to read: good ones of every form, damaged copies, and texts that were never good.

use crate::generate::rng::Rng;
use crate::generate::texts::{doubtful, scalar};
use crate::spelling::model::BASES;

/// Numbers at the edge of 16 bits, and greater ones that are small if a product or sum wraps.
pub const NUMBERS: [&str; 20] = [
    "65534",
    "65535",
    "65536",
    "65537",
    "65540",
    "65545",
    "65600",
    "70000",
    "99999",
    "100000",
    "131073",
    "655350",
    "655360",
    "4294967295",
    "4294967296",
    "4294967299",
    "18446744073709551616",
    "18446744073709551619",
    "340282366920938463463374607431768211456",
    "0000065536",
];

/// Pieces that a text may be put together from.
#[rustfmt::skip]
const PIECES: [&str; 33] = [
    "bool", "int", "float", "uint", "double", "half", "void", "Float", "FLOAT", "x", "X", "[", "]", "+", "-", "0", "1",
    "3", "4", "10", "65535", "65536", " ", "\0", "[3]", "[]", "4x4", "x3", "\u{ff14}", "\u{663}", "\u{b2}", "\u{ff58}",
    "_t",
];

/// Bytes that stand beside the good ones, or mean something in a spelling.
const BYTES: &[u8] = b"0123456789xX[]+-/:;@^`~ \t\n\0.,_abcdefilnotuzABDFIU(){}\x7f\x80\xb2\xbf\xc2\xd9\xef\xff";

pub fn text(rng: &mut Rng) -> Vec<u8> {
    match rng.below(20) {
        0..=6 => good(rng),
        7..=12 => {
            let mut text = good(rng);
            for _ in 0..rng.pick(&[1, 1, 1, 1, 2, 3]) {
                damage(&mut text, rng);
            }
            text
        }
        13 | 14 => at_edge(rng),
        15 | 16 => (0..rng.between(1, 6)).flat_map(|_| rng.pick(&PIECES).bytes()).collect(),
        17 => {
            // A base, then pieces.
            let mut text = rng.pick(&BASES).1.to_vec();
            (0..rng.between(1, 4)).for_each(|_| text.extend(rng.pick(&PIECES[9..]).bytes()));
            text
        }
        18 => {
            let mut text = good(rng);
            let at = rng.below(text.len() + 1);
            let odd = if rng.one_in(2) { scalar(rng) } else { doubtful(rng) };
            text.splice(at..at, odd);
            text
        }
        _ => match rng.below(100) {
            0 => long(rng),
            turn => (0..turn % 12).map(|_| if rng.one_in(4) { rng.byte() } else { rng.pick(BYTES) }).collect(),
        },
    }
}

/// A text that is understood.
fn good(rng: &mut Rng) -> Vec<u8> {
    let mut text = rng.pick(&BASES).1.to_vec();
    match rng.below(4) {
        0 => {}
        1 => number(&mut text, false, rng),
        _ => {
            number(&mut text, false, rng);
            text.push(b'x');
            number(&mut text, true, rng);
        }
    }
    if rng.one_in(2) {
        text.push(b'[');
        number(&mut text, true, rng);
        text.push(b']');
    }
    text
}

/// A number of 16 bits, with zeros before it and a sign, if it may have one.
fn number(text: &mut Vec<u8>, signed: bool, rng: &mut Rng) {
    let value = match rng.below(8) {
        0..=3 => rng.below(5) as u32,
        4 => rng.pick(&[9, 10, 99, 100, 999, 1_000, 9_999, 10_000]),
        5 => rng.pick(&[255, 256, 32_767, 32_768, 65_534, 65_535]),
        _ => rng.word() >> rng.between(16, 31),
    };
    if signed && rng.one_in(4) {
        text.push(b'+');
    }
    if rng.one_in(5) {
        text.extend(vec![b'0'; rng.pick(&[1, 1, 2, 4, 9, 30])]);
    }
    text.extend(value.to_string().bytes());
}

fn damage(text: &mut Vec<u8>, rng: &mut Rng) {
    if text.is_empty() {
        text.push(rng.pick(BYTES));
        return;
    }
    let (at, other) = (rng.below(text.len()), rng.below(text.len()));
    match rng.below(9) {
        0 | 1 => text[at] = if rng.one_in(3) { rng.byte() } else { rng.pick(BYTES) },
        2 => text.insert(rng.below(text.len() + 1), rng.pick(BYTES)),
        3 => text.insert(rng.below(text.len() + 1), rng.pick(b"x[]+-")),
        4 => drop(text.remove(at)),
        5 => text.insert(at, text[at]),
        6 => text[at] ^= if text[at].is_ascii_alphabetic() { 0x20 } else { 1 << rng.below(8) },
        7 => text.swap(at, other),
        _ if rng.one_in(2) => text.truncate(at),
        _ => drop(text.drain(..at)),
    }
}

/// A number at an edge in one of the places for a number.
fn at_edge(rng: &mut Rng) -> Vec<u8> {
    let number = rng.pick(&NUMBERS);
    let form = rng.pick(&["{}", "{}x3", "3x{}", "3x+{}", "[{}]", "[+{}]", "4x4[{}]", "2[{}]", "+{}", "[-{}]"]);
    let mut text = rng.pick(&BASES).1.to_vec();
    text.extend(form.replace("{}", number).bytes());
    text
}

/// Very many leading zeros: a text has no limit.
pub fn long(rng: &mut Rng) -> Vec<u8> {
    let zeros = "0".repeat(rng.pick(&[300, 5_000, 65_530, 65_536, 70_000]));
    let number = rng.pick(&["", "3", "65535", "65536", "+1", "x"]);
    let form = rng.pick(&["{}", "4x{}", "[{}]", "4x4[+{}]"]);
    let mut text = rng.pick(&BASES).1.to_vec();
    text.extend(form.replace("{}", &(zeros + number)).bytes());
    text
}

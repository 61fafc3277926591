//! Well-formed UTF-8 by the Unicode Standard's table 3-7, and nothing of the standard library's.

/// One row: the allowed range of each byte. Rows of fewer than four bytes are shorter.
pub const ROWS: [&[(u8, u8)]; 9] = [
    &[(0x00, 0x7f)],
    &[(0xc2, 0xdf), (0x80, 0xbf)],
    &[(0xe0, 0xe0), (0xa0, 0xbf), (0x80, 0xbf)],
    &[(0xe1, 0xec), (0x80, 0xbf), (0x80, 0xbf)],
    &[(0xed, 0xed), (0x80, 0x9f), (0x80, 0xbf)],
    &[(0xee, 0xef), (0x80, 0xbf), (0x80, 0xbf)],
    &[(0xf0, 0xf0), (0x90, 0xbf), (0x80, 0xbf), (0x80, 0xbf)],
    &[(0xf1, 0xf3), (0x80, 0xbf), (0x80, 0xbf), (0x80, 0xbf)],
    &[(0xf4, 0xf4), (0x80, 0x8f), (0x80, 0xbf), (0x80, 0xbf)],
];

/// Whether the bytes are a sequence of rows of the table.
pub fn well_formed(bytes: &[u8]) -> bool {
    let mut rest = bytes;
    while let Some(&lead) = rest.first() {
        let Some(row) = ROWS.iter().find(|row| row[0].0 <= lead && lead <= row[0].1) else {
            return false;
        };
        if rest.len() < row.len() || !row.iter().zip(rest).all(|(&(low, high), &byte)| low <= byte && byte <= high) {
            return false;
        }
        rest = &rest[row.len()..];
    }
    true
}

#[cfg(test)]
mod tests {
    use super::well_formed;

    #[test]
    fn every_scalar_value_and_no_surrogate() {
        for code in 0..=0x0010_ffffu32 {
            if let Some(scalar) = char::from_u32(code) {
                assert!(well_formed(scalar.encode_utf8(&mut [0; 4]).as_bytes()), "{code:x}");
            }
        }
        assert!(!well_formed(&[0xed, 0xa0, 0x80]));
        assert!(!well_formed(&[0xf4, 0x90, 0x80, 0x80]));
    }

    #[test]
    fn as_the_standard_library_on_all_short_sequences() {
        for lead in 0..=255u8 {
            for second in 0..=255u8 {
                for third in [0x00, 0x41, 0x7f, 0x80, 0xbf, 0xc0] {
                    for fourth in [0x00, 0x7f, 0x80, 0xbf, 0xc0, 0xff] {
                        let bytes = [lead, second, third, fourth];
                        for length in 0..=4 {
                            let part = &bytes[..length];
                            assert_eq!(well_formed(part), std::str::from_utf8(part).is_ok(), "{part:x?}");
                        }
                    }
                }
            }
        }
    }
}

//! A sentence for each refusal, and what a refusal is in Rust.

use nontrefalcu::{parse_rdef, raw, Refusal};
use std::collections::BTreeSet;
use std::error::Error;

#[test]
fn each_number_has_a_sentence_of_its_own() {
    let sentences: BTreeSet<String> = (1..=18).map(|number| Refusal { number }.to_string()).collect();
    assert_eq!(sentences.len(), 18);
    assert!(sentences.iter().all(|sentence| !sentence.starts_with("refused") && sentence.len() <= 128));
    assert_eq!(Refusal { number: 1 }.to_string(), "the chunk has fewer than 28 bytes");
    assert_eq!(Refusal { number: 19 }.to_string(), "refused with 19");
}

#[test]
fn a_number_that_is_no_refusal_has_the_empty_text() {
    for number in [0, 19, 20, u32::MAX] {
        let (mut out, mut length) = ([7; 4], [7; 2]);
        assert_eq!(raw::refusal_text(number, &mut out, &mut length), 0);
        assert_eq!((out, length), ([7; 4], [0; 2]));
    }
}

#[test]
fn an_output_that_is_too_small_is_17_and_zeros() {
    for number in 1..=18 {
        let (mut out, mut length) = ([7; 128], [7]);
        assert_eq!(raw::refusal_text(number, &mut out, &mut length), 0);
        let needed = length[0] as usize;
        assert!(out[needed..].iter().all(|&byte| byte == 7));
        let mut small = vec![7; needed - 1];
        assert_eq!(raw::refusal_text(number, &mut small, &mut length), 17);
        assert_eq!((small, length), (vec![0; needed - 1], [0]));
    }
}

#[test]
fn a_refusal_is_an_error() {
    let error: Box<dyn Error> = parse_rdef(&[]).expect_err("no chunk").into();
    assert_eq!(error.to_string(), "the chunk has fewer than 28 bytes");
}

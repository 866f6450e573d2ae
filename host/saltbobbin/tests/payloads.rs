//! What document 01 asks to be run as tests of the payload reader and writer, and what else callers lean on.
use saltbobbin::{
    delegation::{decode, encode},
    Delegation, Power, Refusal,
};

/// A payload of any length, of which the first 66 bytes are whole if there are as many.
fn payload(length: usize, power: u8, tag: u8) -> Vec<u8> {
    let mut out = vec![3; length.max(66)];
    out[..32].fill(1);
    out[32..64].fill(2);
    out[64..66].copy_from_slice(&[power, tag]);
    out.truncate(length);
    out
}

#[test]
fn payloads_of_65_to_67_bytes_with_tag_0() {
    assert_eq!(decode(&payload(65, b'E', 0)), Err(Refusal::UnexpectedEnd));
    let whole = Delegation { audience: &[1; 32], subject: &[2; 32], power: Power::Edit, citation: None };
    assert_eq!(decode(&payload(66, b'E', 0)), Ok(whole));
    assert_eq!(decode(&payload(67, b'E', 0)), Err(Refusal::TrailingBytes));
}

#[test]
fn payloads_of_97_to_99_bytes_with_tag_1() {
    assert_eq!(decode(&payload(97, b'A', 1)), Err(Refusal::UnexpectedEnd));
    let citation = Some(&[3; 32]);
    let whole = Delegation { audience: &[1; 32], subject: &[2; 32], power: Power::Admin, citation };
    assert_eq!(decode(&payload(98, b'A', 1)), Ok(whole));
    assert_eq!(decode(&payload(99, b'A', 1)), Err(Refusal::TrailingBytes));
}

#[test]
fn the_power_is_tested_before_the_tag() {
    assert_eq!(decode(&payload(66, 88, 9)), Err(Refusal::InvalidTag(88)));
    assert_eq!(decode(&payload(66, b'E', 9)), Err(Refusal::InvalidTag(9)));
}

#[test]
fn a_buffer_that_is_exact_and_one_byte_short() {
    for (citation, length) in [(&[][..], 66), (&[3; 32][..], 98)] {
        let mut out = vec![0xee; length];
        let short = &mut out[1..];
        assert_eq!(encode(&[1; 32], &[2; 32], b'L', citation, short), Err(Refusal::SmallBuffer(length)));
        assert_eq!(out, vec![0xee; length]);
        assert_eq!(encode(&[1; 32], &[2; 32], b'L', citation, &mut out), Ok(length));
        assert_eq!(out, payload(length, b'L', (length == 98).into()));
    }
}

#[test]
fn one_slice_may_be_every_argument() {
    let (key, mut out) = ([9; 32], [0; 98]);
    assert_eq!(encode(&key, &key, b'A', &key, &mut out), Ok(98));
    let all = Delegation { audience: &key, subject: &key, power: Power::Admin, citation: Some(&key) };
    assert_eq!(decode(&out), Ok(all));
}

#[test]
fn refusals_keep_their_number_and_value() {
    for number in 1..=u8::MAX {
        for beside in [0, 5, 255, 256, usize::MAX] {
            let refusal = Refusal::from_number(number, beside).expect("only 0 is no refusal");
            assert_eq!(refusal.number(), number);
            let without_value = matches!(number, 2 | 3 | 5);
            assert_eq!(refusal.beside(), if without_value { 0 } else { beside }, "{refusal}");
        }
    }
    assert_eq!(Refusal::from_number(0, 7), None);
}

#[test]
fn powers_keep_their_byte_and_their_order() {
    for byte in 0..=u8::MAX {
        let rank = b"LREA".iter().position(|b| *b == byte);
        assert_eq!(Power::from_byte(byte).map(|power| power.rank().into()), rank);
        assert!(Power::from_byte(byte).is_none_or(|power| power.byte() == byte));
    }
    assert!(Power::ALL.is_sorted());
}

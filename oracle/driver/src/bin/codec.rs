//! codec: the published `Delegation::decode` and `encode` against document 01's order of checks, on keys that
//! the Rust accepts; then what the Rust says of keys that it refuses, which document 01 leaves out. Stops at
//! the first disagreement.
//! codec keys: of each line of standard input, 32 bytes in hex, what `Identifier::from_bytes` says. It is the
//! Rust side of check_keys.py.
use oracle::{
    published::{keys, Bytes, Decode, DecodeError, Delegation, Encode, Identifier},
    rng::Rng,
    text::{hex, unhex},
};
use std::io::stdin;

/// Document 01: the refusal's number and the value beside it, or the citation.
fn document(payload: &[u8]) -> Result<Option<Bytes>, (u8, u8)> {
    if payload.len() < 66 {
        return Err((2, 0));
    }
    let (power, tag) = (payload[64], payload[65]);
    if !b"LREA".contains(&power) {
        return Err((4, power));
    }
    match (tag, payload.len()) {
        (0, 66) => Ok(None),
        (0, _) => Err((3, 0)),
        (1, 98) => Ok(Some(payload[66..].try_into().expect("32 bytes"))),
        (1, length) if length < 98 => Err((2, 0)),
        (1, _) => Err((3, 0)),
        _ => Err((4, tag)),
    }
}

/// The same of the Rust.
fn rust(payload: &[u8]) -> Result<Delegation, (u8, u8)> {
    Delegation::decode(payload).map_err(|e| match e {
        DecodeError::UnexpectedEnd => (2, 0),
        DecodeError::TrailingBytes => (3, 0),
        DecodeError::InvalidTag(byte) => (4, byte),
        other => panic!("document 01 has no number for {other:?}"),
    })
}

fn agree(payload: &[u8]) {
    match (rust(payload), document(payload)) {
        (Ok(d), Ok(citation)) => {
            assert_eq!(d.audience.as_bytes()[..], payload[..32]);
            assert_eq!(d.subject.as_bytes()[..], payload[32..64]);
            assert_eq!(d.power as u8, payload[64]);
            assert_eq!(d.citation.map(Bytes::from), citation);
            assert_eq!(d.encode().as_bytes(), payload, "encode after decode");
        }
        (Err(rust), Err(document)) if rust == document => {}
        (rust, document) => panic!("{}: rust {rust:?}, document {document:?}", hex(payload)),
    }
}

/// A payload of any length, power byte and tag; what follows the tag is random.
fn payload(keys: [&Bytes; 2], power: u8, tag: u8, length: usize, r: &mut Rng) -> Vec<u8> {
    let mut out = keys.map(|k| k.as_slice()).concat();
    out.extend([power, tag]);
    while out.len() < length {
        out.extend(r.bytes());
    }
    out.truncate(length);
    out
}

/// The Rust tests the keys after the length and before the power byte, audience first.
fn refused_keys(good: &Bytes, r: &mut Rng) {
    let no_point = [2; 32];
    assert!(Identifier::from_bytes(no_point).is_err());
    let small_order = [0; 32];
    assert!(Identifier::from_bytes(small_order).is_err());
    let mut says = |keys, power, tag, length, error| {
        assert_eq!(Delegation::decode(&payload(keys, power, tag, length, r)), Err(error));
    };
    says([&no_point, &small_order], 88, 9, 65, DecodeError::UnexpectedEnd);
    says([&no_point, &small_order], 88, 9, 66, DecodeError::InvalidField("audience"));
    says([good, &small_order], 88, 9, 66, DecodeError::InvalidField("subject"));
    says([&small_order, good], b'E', 0, 67, DecodeError::InvalidField("audience"));
    says([good, good], 88, 9, 66, DecodeError::InvalidTag(88));
}

fn compare() {
    let keys: Vec<Bytes> = keys(5, 8).iter().map(Identifier::to_bytes).collect();
    let mut r = Rng::new(1);
    let mut payloads = 0;
    let mut agree = |power, tag, length, r: &mut Rng| {
        agree(&payload([&r.pick(&keys), &r.pick(&keys)], power, tag, length, r));
        payloads += 1;
    };
    for length in 0..=140 {
        for power in *b"LREAXlC\0" {
            for tag in [0, 1, 2, 9] {
                agree(power, tag, length, &mut r);
            }
        }
    }
    for power in 0..=255 {
        for tag in 0..=255 {
            agree(power, tag, 66, &mut r);
            if b"LREA".contains(&power) || tag < 3 {
                agree(power, tag, 98, &mut r);
            }
        }
    }
    refused_keys(&keys[0], &mut r);
    println!(
        "codec: {payloads} payloads, 0 differ; refused keys are named after the length, before the power"
    );
}

fn main() {
    match std::env::args().nth(1).as_deref() {
        None => compare(),
        Some("keys") => {
            for line in stdin().lines() {
                let bytes = unhex(&line.expect("a line")).and_then(|b| b.try_into().ok());
                println!("{:?}", Identifier::from_bytes(bytes.expect("32 bytes in hex")).map(|_| ()));
            }
        }
        Some(other) => panic!("codec, or codec keys; not {other}"),
    }
}

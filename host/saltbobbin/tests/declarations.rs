//! The declarations of src/c.rs are written by hand, and so is crates/exports/keyline.h. No compiler holds
//! either against the Rattle source of the proved functions, so this test does: it reads the three texts,
//! puts each declaration into C's words and asks that they are the same, and that the library has the header's
//! numbers. A slice of Rattle's is a pointer and then a length, as the header says.
use saltbobbin::{
    delegation,
    script::{self, Operation},
    Power, Refusal, MOST_DELEGATIONS, MOST_KEYS, MOST_REVOCATIONS,
};
use std::{
    fs,
    path::{Path, PathBuf},
};

/// crates/exports of the repository that the archive is from, or else of this one.
fn exports() -> PathBuf {
    let of_archive = Path::new(env!("SALTBOBBIN_STATICLIB")).join("..");
    let of_repository = Path::new(env!("CARGO_MANIFEST_DIR")).join("../../crates/exports");
    if of_archive.join("keyline.h").is_file() {
        of_archive
    } else {
        of_repository
    }
}

fn text(path: &str) -> String {
    let path = exports().join(path);
    fs::read_to_string(&path).unwrap_or_else(|e| panic!("{}: {e}", path.display()))
}

/// From one mark to the next, as often as there are any.
fn pieces<'a>(text: &'a str, from: &'a str, to: &'a str) -> impl Iterator<Item = &'a str> {
    text.split(from).skip(1).map(move |rest| rest.split(to).next().expect("split gives a first piece"))
}

/// A parameter of Rust's or Rattle's in C's words.
fn in_c(name: &str, of: &str) -> Vec<String> {
    let length = format!("size_t {name}_length");
    match of {
        "u8" => vec![format!("uint8_t {name}")],
        "usize" => vec![format!("size_t {name}")],
        "*const u8" => vec![format!("const uint8_t *{name}")],
        "*mut u8" | "&mut u8" => vec![format!("uint8_t *{name}")],
        "*mut usize" | "&mut usize" => vec![format!("size_t *{name}")],
        "&[u8]" => vec![format!("const uint8_t *{name}"), length],
        "&mut [u8]" => vec![format!("uint8_t *{name}"), length],
        other => panic!("what is {other} in C?"),
    }
}

/// `name(one: type, two: type) -> type`, with anything behind it, in C's words.
fn declaration(text: &str) -> String {
    let (name, rest) = text.split_once('(').expect("a parameter list");
    let (parameters, rest) = rest.split_once(')').expect("its end");
    let result = rest.trim_start().strip_prefix("->").expect("a result").split_whitespace().next();
    let parameters = parameters.split(',').map(str::trim).filter(|p| !p.is_empty());
    let parameters = parameters.flat_map(|p| {
        let (name, of) = p.split_once(':').expect("a name and a type");
        in_c(name, of.trim())
    });
    let parameters = parameters.collect::<Vec<_>>().join(", ");
    format!("{}({parameters})", in_c(name, result.expect("its type")).concat())
}

/// The header's code alone, each run of blanks as one.
fn header_declarations() -> Vec<String> {
    let header = text("keyline.h");
    let code: Vec<&str> = header.split("/*").map(|piece| piece.split("*/").last().expect("one")).collect();
    let code = code.concat();
    let code: Vec<&str> = code.lines().filter(|l| !l.starts_with('#') && !l.ends_with('{')).collect();
    let code = code.join(" ");
    let found = code.split(';').map(|piece| piece.split_whitespace().collect::<Vec<_>>().join(" "));
    found.filter(|piece| piece.contains('(')).collect()
}

fn rust_declarations() -> Vec<String> {
    let block =
        pieces(include_str!("../src/c.rs"), "extern \"C\" {", "\n}").next().expect("the declarations");
    pieces(block, "fn ", ";").map(declaration).collect()
}

fn rattle_declarations() -> Vec<String> {
    pieces(&text("src/lib.rt"), "extern \"C\" fn ", "\n{").map(declaration).collect()
}

#[test]
fn the_three_texts_declare_the_same_functions() {
    let header = header_declarations();
    assert!(!header.is_empty());
    assert_eq!(rattle_declarations(), header, "crates/exports/src/lib.rt and keyline.h");
    assert_eq!(rust_declarations(), header, "src/c.rs and keyline.h");
}

#[test]
fn the_library_has_the_headers_numbers() {
    let expected = [
        ("NOT_REFUSED", 0),
        ("BAD_LENGTH", Refusal::BadLength(0).number().into()),
        ("UNEXPECTED_END", Refusal::UnexpectedEnd.number().into()),
        ("TRAILING_BYTES", Refusal::TrailingBytes.number().into()),
        ("INVALID_TAG", Refusal::InvalidTag(0).number().into()),
        ("CONFLICT", Refusal::Conflict.number().into()),
        ("FULL_DELEGATIONS", Refusal::FullDelegations(0).number().into()),
        ("FULL_REVOCATIONS", Refusal::FullRevocations(0).number().into()),
        ("FULL_KEYS", Refusal::FullKeys(0).number().into()),
        ("SMALL_BUFFER", Refusal::SmallBuffer(0).number().into()),
        ("KEY_LENGTH", delegation::KEY_LENGTH),
        ("DIGEST_LENGTH", delegation::DIGEST_LENGTH),
        ("POWER_AT", delegation::POWER_AT),
        ("TAG_AT", delegation::TAG_AT),
        ("CITATION_AT", delegation::CITATION_AT),
        ("PAYLOAD_LENGTH", delegation::PAYLOAD_LENGTH),
        ("CITED_LENGTH", delegation::CITED_LENGTH),
        ("RELAY", Power::Relay.byte().into()),
        ("READ", Power::Read.byte().into()),
        ("EDIT", Power::Edit.byte().into()),
        ("ADMIN", Power::Admin.byte().into()),
        ("MOST_KEYS", MOST_KEYS),
        ("MOST_DELEGATIONS", MOST_DELEGATIONS),
        ("MOST_REVOCATIONS", MOST_REVOCATIONS),
        ("REQUEST_HEAD", script::REQUEST_HEAD),
        ("REPLY_HEAD", script::REPLY_HEAD),
        ("MOST_SCRIPT", script::MOST_SCRIPT),
    ];
    let operations = Operation::ALL.map(|operation| (header_name(operation), operation.byte().into()));
    let standings = ["ABSENT", "LIVE", "REVOKED", "UNSUPPORTED"].into_iter().zip(0..);
    let expected = expected.into_iter().map(|(name, value)| (name.to_string(), value));
    let standings = standings.map(|(name, value)| (name.to_string(), value));
    let expected: Vec<(String, usize)> = expected.chain(operations).chain(standings).collect();
    let header = text("keyline.h");
    let found: Vec<(String, usize)> = pieces(&header, "#define KEYLINE_", "\n")
        .filter_map(|line| line.split_once(' '))
        .map(|(name, value)| match value.as_bytes() {
            [b'\'', letter, b'\''] => (name.to_string(), usize::from(*letter)),
            _ => (name.to_string(), value.parse().expect("a number")),
        })
        .collect();
    assert_eq!(found, expected);
}

/// `InsertDelegation` is `OP_INSERT_DELEGATION`.
fn header_name(operation: Operation) -> String {
    let parted = format!("{operation:?}").chars().fold("OP".to_string(), |name, letter| {
        let part = if letter.is_ascii_uppercase() { "_" } else { "" };
        format!("{name}{part}{}", letter.to_ascii_uppercase())
    });
    parted
}

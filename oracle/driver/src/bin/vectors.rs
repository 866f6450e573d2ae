//! vectors DIR: the fixed list of vector files, in the form of VECTORS.md. small.txt has the specimens, the
//! smallest stores that notice each mistake, and some of every small recipe; large.txt has the other recipes;
//! payloads.txt has payloads. gate.txt has a little of each: it is what the gate's program replays. The same
//! files come out every time.
use oracle::{
    mistakes::Mistake,
    naive::{evaluate, Derivation},
    published::{keys, Decode, DecodeError, Delegation, Encode, Identifier, Insertion},
    recipes::{chosen, Recipe, Size, RECIPES},
    rng::Rng,
    specimens::specimens,
    store::Store,
    text::{self, hex},
};
use std::{fs::write, path::Path, process::exit};

/// Stores that notice a mistake: so many, sought in so many of the small recipes' stores.
const NOTICING: usize = 6;
const SOUGHT: u64 = 4000;

/// Different small stores on which the mistake changes an answer.
fn noticing(mistake: Mistake) -> Vec<Store> {
    let answers = |s: &Store, mistake| {
        let e = evaluate(s, Derivation::AllPairs, mistake);
        (e.positive, e.effective, e.live, e.conveyed)
    };
    let differs = |s: &Store| answers(s, Mistake::NoMistake) != answers(s, mistake);
    let small: Vec<&Recipe> = RECIPES.iter().filter(|r| r.size == Size::Small).collect();
    let mut found: Vec<Store> = vec![];
    for seed in 0..SOUGHT {
        let store = small[seed as usize % small.len()].make(seed);
        if found.len() < NOTICING && differs(&store) {
            let least = store.minimize(&differs);
            if !found.contains(&least) {
                found.push(least);
            }
        }
    }
    found
}

/// The stores that notice each mistake, by its number.
fn witnesses() -> Vec<(usize, Vec<Store>)> {
    Mistake::ALL.into_iter().enumerate().map(|(i, (mistake, _))| (i + 1, noticing(mistake))).collect()
}

fn small(pool: &[Identifier], witnesses: &[(usize, Vec<Store>)]) -> String {
    let mut out = String::new();
    for (name, store) in specimens() {
        for seed in 0..4 {
            // an order of insertion each, with a block after every insertion
            let blocks = store.delegations.len() + store.revocations.len();
            out += &text::store(name, &store, pool, seed, blocks.max(2));
        }
    }
    for (number, stores) in witnesses {
        for (i, store) in stores.iter().enumerate() {
            out += &text::store(&format!("mistake-{number}-{i}"), store, pool, 1000 + i as u64, 1);
        }
    }
    for recipe in RECIPES.iter().filter(|r| r.size == Size::Small) {
        for i in 0..20 {
            let blocks = if i < 4 { 4 } else { 1 };
            out += &text::store(&format!("{}-{i}", recipe.name), &recipe.make(777 + i), pool, i, blocks);
        }
    }
    out
}

fn large(pool: &[Identifier]) -> String {
    let mut out = String::new();
    for recipe in RECIPES.iter().filter(|r| r.size != Size::Small) {
        let (count, blocks) = if recipe.size == Size::Medium { (4, 2) } else { (1, 1) };
        for i in 0..count {
            out += &text::store(&format!("{}-{i}", recipe.name), &recipe.make(999 + i), pool, i, blocks);
        }
    }
    out
}

/// A medium store with holders who revoke each other's delegations; of what it revokes 10 live on, 3 of them
/// capped, and 11 are dead.
const CROSSING: u64 = 240;

/// What the gate replays, kept small: S1 to S12 in several orders, two stores that notice each mistake, two of
/// every small recipe, one of 27 keys, one at document 01's limits, and the payloads around the two lengths.
fn gate(pool: &[Identifier], witnesses: &[(usize, Vec<Store>)]) -> String {
    let empty = Store { keys: 1, ..Store::default() };
    let mut out = text::store("S1", &empty, pool, 0, 2);
    for (name, store) in specimens() {
        let insertions = store.delegations.len() + store.revocations.len();
        out += &text::store(name, &store, pool, 0, insertions.max(2)); // a block after every insertion
        for seed in 1..4 {
            out += &text::store(name, &store, pool, seed, 1);
        }
        if name.starts_with("S6") {
            let early = |seed: &u64| {
                matches!(store.concrete(pool, *seed).insertions[0], Insertion::Revocation { .. })
            };
            let seed = (0..).find(early).expect("some order has the revocation first");
            out += &text::store(&name.replace("S6", "S12"), &store, pool, seed, insertions);
        }
    }
    for (number, stores) in witnesses {
        for (i, store) in stores.iter().take(2).enumerate() {
            out += &text::store(&format!("mistake-{number}-{i}"), store, pool, 2000 + i as u64, 1);
        }
    }
    for recipe in RECIPES.iter().filter(|r| r.size == Size::Small) {
        for (seed, blocks) in [(999, 2), (1000, 1)] {
            out += &text::store(&format!("{}-{seed}", recipe.name), &recipe.make(seed), pool, seed, blocks);
        }
    }
    for (name, seed) in [("medium", CROSSING), ("full-nested", 999)] {
        let recipe = chosen(name).expect("a recipe")[0];
        out += &text::store(&format!("{name}-{seed}"), &recipe.make(seed), pool, seed, 1);
    }
    let lengths = [0, 1, 64, 65, 66, 67, 97, 98, 99];
    out + &payload_lines(&mut Rng::new(3), pool, &lengths, b"LREAXl", &[0, 1, 9])
}

fn said(payload: &[u8]) -> String {
    match Delegation::decode(payload) {
        Ok(d) => {
            assert_eq!(d.encode().as_bytes(), payload);
            let citation = d.citation.map_or("-".into(), |c| hex(c.as_slice()));
            format!("0 {} {citation}", d.power as u8 as char)
        }
        Err(DecodeError::UnexpectedEnd) => "2 0".into(),
        Err(DecodeError::TrailingBytes) => "3 0".into(),
        Err(DecodeError::InvalidTag(byte)) => format!("4 {byte}"),
        Err(other) => panic!("document 01 has no number for {other:?}"),
    }
}

/// A payload and the reader's answer, cut to the length.
fn payload_line(r: &mut Rng, pool: &[Identifier], power: u8, tag: u8, length: usize) -> String {
    let mut payload = [r.pick(pool).to_bytes(), r.pick(pool).to_bytes()].concat();
    payload.extend([power, tag]);
    payload.extend([r.bytes(), r.bytes()].concat());
    payload.truncate(length);
    text::payload(&payload, &said(&payload))
}

fn payload_lines(r: &mut Rng, pool: &[Identifier], lengths: &[usize], powers: &[u8], tags: &[u8]) -> String {
    let mut out = String::new();
    for length in lengths {
        for power in powers {
            for tag in tags {
                out += &payload_line(r, pool, *power, *tag, *length);
            }
        }
    }
    out
}

fn payloads(pool: &[Identifier]) -> String {
    let lengths = [0, 1, 31, 32, 33, 63, 64, 65, 66, 67, 96, 97, 98, 99, 130];
    let mut r = Rng::new(3);
    let mut out = payload_lines(&mut r, pool, &lengths, b"LREAXlBC\0\xff", &[0, 1, 2, 9, 255]);
    for byte in 0..=255 {
        out += &payload_line(&mut r, pool, byte, 0, 66);
        out += &payload_line(&mut r, pool, byte, 1, 98);
        out += &payload_line(&mut r, pool, b'E', byte, 66);
    }
    out
}

fn main() {
    let Some(dir) = std::env::args().nth(1) else {
        eprintln!("vectors DIR");
        exit(2);
    };
    let pool = keys(2024, 65);
    let put = |name: &str, text: String| write(Path::new(&dir).join(name), text).expect("DIR can be written");
    let witnesses = witnesses();
    put("small.txt", small(&pool, &witnesses));
    put("large.txt", large(&pool));
    put("payloads.txt", payloads(&pool));
    put("gate.txt", gate(&pool, &witnesses));
}

//! The payloads that the reader is asked about. Keys are from a pool that the published Rust accepts, except
//! where a payload is damaged there.
use crate::sources::{Draw, Source, Turns};
use oracle::published::Identifier;

/// Every length below this one is tried.
pub const LENGTHS: usize = 201;

/// The four powers, near misses and others.
const POWERS: [u8; 8] = *b"LREAXlC\0";

const TAGS: [u8; 5] = [0, 1, 2, 9, 255];

pub fn payloads(pool: &[Identifier], seed: u64) -> Turns<Vec<u8>> {
    let sources = vec![
        Source::all("lengths", LENGTHS * POWERS.len() * TAGS.len(), |mut index, draw| {
            let (length, power, tag) = (index.below(LENGTHS), index.pick(&POWERS), index.pick(&TAGS));
            payload(power, tag, length, draw)
        }),
        Source::all("powers and tags", 256 * 256 * 2, |mut index, draw| {
            let (power, tag, length) = (index.below(256), index.below(256), index.pick(&[66, 98]));
            payload(power as u8, tag as u8, length, draw)
        }),
        Source::endless("random", |_, draw| random(draw)),
        Source::endless("damaged", |_, draw| damaged(draw)),
    ];
    Turns::new(sources, pool, seed)
}

/// Two keys of the pool, a power byte, a tag, then random bytes; cut or continued to the length.
fn payload(power: u8, tag: u8, length: usize, draw: &mut Draw) -> Vec<u8> {
    let mut out = [draw.key(), draw.key()].concat();
    out.extend([power, tag]);
    out.extend(draw.bytes(length.saturating_sub(out.len())));
    out.truncate(length);
    out
}

/// Mostly near the edges: the right lengths, powers and tags, and those beside them.
fn random(draw: &mut Draw) -> Vec<u8> {
    let power = draw.power();
    let r = &mut draw.rng;
    let tag = if r.chance(80) { r.below(2) } else { r.below(256) } as u8;
    let length = match r.below(10) {
        0 => r.below(LENGTHS),
        1 => r.below(5000),
        2..=4 => r.pick(&[64, 65, 66, 67, 97, 98, 99]),
        _ => [66, 98][usize::from(tag == 1)],
    };
    payload(power, tag, length, draw)
}

/// A right payload, then damaged in one to three places. Damage to a key leaves a key that the published Rust
/// refuses as often as not.
fn damaged(draw: &mut Draw) -> Vec<u8> {
    let tag = draw.rng.below(2);
    let power = draw.rng.pick(b"LREA");
    let mut out = payload(power, tag as u8, 66 + 32 * tag, draw);
    for _ in 0..draw.rng.range(1, 3) {
        if out.is_empty() {
            break;
        }
        let r = &mut draw.rng;
        let at = r.below(out.len());
        match r.below(8) {
            0 => out.truncate(at),
            1 => out.insert(at, r.word() as u8),
            2 => drop(out.remove(at)),
            3 => out[at] ^= 1 << r.below(8),
            4 if out.len() > 65 => out.swap(64, 65),
            5 if out.len() > 65 => out[r.range(64, 65)] = r.word() as u8,
            6 if out.len() > 63 => {
                // a key of small order, no point of the curve, or any bytes
                let key = r.below(2) * 32;
                out[key..key + 32].copy_from_slice(&[[0; 32], [2; 32], r.bytes()][r.below(3)]);
            }
            _ => {
                let more = r.pick(&[1, 2, 31, 32, 33]);
                out.extend(draw.bytes(more));
            }
        }
    }
    out
}

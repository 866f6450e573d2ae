//! The calls that the writer is asked to answer. Keys of the right length are from a pool that the published
//! Rust accepts, except some of the random ones.
use crate::{
    answers::{Call, GUARD},
    sources::{Draw, Source, Turns},
};
use oracle::published::Identifier;

/// Buffers of every length below this one are tried.
pub const ROOMS: usize = 131;

/// At the edges of both payload lengths.
const EDGES: [usize; 8] = [0, 65, 66, 67, 97, 98, 99, 130];

/// Every length of an argument below this one is tried, with the other two around the right one.
const LENGTHS: usize = 71;
const AROUND: [usize; 4] = [0, 31, 32, 33];

pub fn calls(pool: &[Identifier], seed: u64) -> Turns<Call> {
    let sources = vec![
        Source::all("rooms", ROOMS * 2 * 2 * 2, |mut index, draw| {
            let (room, citation) = (index.below(ROOMS), index.pick(&[0, 32]));
            let (power, audience) = (index.pick(b"EX"), index.pick(&[32, 31]));
            call([audience, 32, citation], power, room, draw)
        }),
        Source::all("powers", 256 * 2 * EDGES.len(), |mut index, draw| {
            let (power, citation, room) = (index.below(256), index.pick(&[0, 32]), index.pick(&EDGES));
            call([32, 32, citation], power as u8, room, draw)
        }),
        Source::all("lengths", LENGTHS * AROUND.len().pow(2) * 3 * 2 * EDGES.len(), |mut index, draw| {
            let (n, a, b) = (index.below(LENGTHS), index.pick(&AROUND), index.pick(&AROUND));
            let lengths = index.pick(&[[n, a, b], [a, n, b], [a, b, n]]);
            call(lengths, index.pick(b"AX"), index.pick(&EDGES), draw)
        }),
        Source::endless("right", |_, draw| {
            let citation = 32 * draw.rng.below(2);
            let (power, room) = (draw.rng.pick(b"LREA"), draw.rng.range(66 + citation, ROOMS));
            call([32, 32, citation], power, room, draw)
        }),
        Source::endless("random", |_, draw| random(draw)),
    ];
    Turns::new(sources, pool, seed)
}

/// Audience, subject and citation of these lengths, and a buffer with that much room among random bytes.
fn call(lengths: [usize; 3], power: u8, room: usize, draw: &mut Draw) -> Call {
    let [audience, subject] = [lengths[0], lengths[1]].map(|length| match length {
        32 => draw.key().to_vec(),
        _ => draw.bytes(length),
    });
    let (citation, area) = (draw.bytes(lengths[2]), draw.bytes(room + 2 * GUARD));
    Call { audience, subject, power, citation, area }
}

/// Mostly right, in each part; one subject in ten is any bytes.
fn random(draw: &mut Draw) -> Call {
    let power = draw.power();
    let r = &mut draw.rng;
    let room = if r.chance(70) { r.pick(&EDGES) } else { r.below(1000) };
    let right = [32, 32, 32 * r.below(2)];
    let lengths = right.map(|length| if r.chance(95) { length } else { r.below(100) });
    let any = r.chance(10);
    let mut out = call(lengths, power, room, draw);
    if any {
        out.subject = draw.bytes(lengths[1]);
    }
    out
}

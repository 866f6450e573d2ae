//! The kernel's answers, by both ways into it that saltbobbin has: the C functions' own numbers, and Rust's
//! types around them. Both must say the same.
use crate::answers::{Call, Reading, Writing};
use saltbobbin::{c, delegation, Refusal};
use std::{hint::black_box, ptr};

/// What the C function says.
pub fn read(payload: &[u8]) -> Reading {
    let c::Decoded { number, beside, power, rank, citation } = c::delegation_decode(payload);
    Reading { number, beside, power, rank, citation }
}

/// What the wrapper says, or which part is not the caller's own bytes at the place that document 01 names.
pub fn read_typed(payload: &[u8]) -> Result<Reading, &'static str> {
    let d = match delegation::decode(payload) {
        Ok(d) => d,
        Err(refusal) => return Ok(Reading::refused(refusal.number(), refusal.beside())),
    };
    let citation = d.citation.map_or(&[][..], |digest| digest);
    if !ptr::eq(&d.audience[..], &payload[..32]) {
        return Err("an audience that is not bytes 0 to 31 of the payload");
    }
    if !ptr::eq(&d.subject[..], &payload[32..64]) {
        return Err("a subject that is not bytes 32 to 63 of the payload");
    }
    if !citation.is_empty() && !ptr::eq(citation, &payload[66..98]) {
        return Err("a citation that is not bytes 66 to 97 of the payload");
    }
    Ok(Reading::accepted(d.power.byte(), d.power.rank().into(), citation.len()))
}

/// What the C function answers and leaves.
pub fn write(call: &Call) -> Writing {
    let mut area = call.area.clone();
    let out = &mut area[call.buffer()];
    let answer = c::delegation_encode(&call.audience, &call.subject, call.power, &call.citation, out);
    let c::Encoded { number, written, beside } = answer;
    black_box(&mut area); // the guards are looked at again, not remembered
    Writing { number, beside, written, area }
}

/// What the wrapper answers and leaves.
pub fn write_typed(call: &Call) -> Writing {
    let mut area = call.area.clone();
    let out = &mut area[call.buffer()];
    let answer = delegation::encode(&call.audience, &call.subject, call.power, &call.citation, out);
    black_box(&mut area);
    let number = answer.map_or_else(Refusal::number, |_| 0);
    let beside = answer.map_or_else(Refusal::beside, |_| 0);
    Writing { number, beside, written: answer.unwrap_or(0), area }
}

/// What the kernel's reader finds in what its writer wrote, written once more.
pub fn read_back(call: &Call, kernel: &Writing) -> Writing {
    let written = &kernel.area[call.buffer()][..kernel.written];
    let mut again = vec![0; written.len()];
    match delegation::decode(written).and_then(|d| d.encode(&mut again)) {
        Ok(_) => call.wrote(&again),
        Err(refusal) => call.refused(refusal.number(), refusal.beside()),
    }
}

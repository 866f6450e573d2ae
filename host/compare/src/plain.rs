//! Document 01's "Delegation payload" read plainly, with its words beside each check, and nothing else. It is
//! written from the document, not from the Rust or the kernel. Deliberate mistakes are switches in it.
use crate::{
    answers::{
        Call, Reading, Writing, BAD_LENGTH, INVALID_TAG, SMALL_BUFFER, TRAILING_BYTES, UNEXPECTED_END,
    },
    mistakes::Mistake::{self, *},
};

/// "Relay `L` rank 0, Read `R` 1, Edit `E` 2, Admin `A` 3."
const POWERS: [u8; 4] = *b"LREA";

fn rank(power: u8, mistake: Mistake) -> Option<usize> {
    let powers = if mistake == RankByByte { *b"AELR" } else { POWERS };
    powers.iter().position(|byte| *byte == power)
}

/// "audience 32, subject 32, power 1, tag 1, then 32 bytes of citation if the tag is 1. Length 66 or 98."
pub fn read(payload: &[u8], mistake: Mistake) -> Reading {
    let length = payload.len();
    // "under 66 bytes is UnexpectedEnd"
    if length < 66 {
        return Reading::refused(UNEXPECTED_END, 0);
    }
    let (power, tag) = (payload[64], payload[65]);
    if mistake == TagBeforePower && tag > 1 {
        return Reading::refused(INVALID_TAG, tag.into());
    }
    // "a power byte that is none of the four is InvalidTag"
    let Some(rank) = rank(power, mistake) else {
        return Reading::refused(INVALID_TAG, power.into());
    };
    let shortest = if mistake == ShortCitation { 97 } else { 98 };
    match tag {
        // "tag 0 with more than 66 bytes is TrailingBytes"
        0 if length > 66 && mistake != TrailingIgnored => Reading::refused(TRAILING_BYTES, 0),
        0 => Reading::accepted(power, rank, 0),
        // "tag 1 with under 98 is UnexpectedEnd, with over 98 TrailingBytes"
        1 if length < shortest => Reading::refused(UNEXPECTED_END, 0),
        1 if length > 98 => Reading::refused(TRAILING_BYTES, 0),
        1 => Reading::accepted(power, rank, length - 66),
        // "any other tag is InvalidTag"
        _ => Reading::refused(INVALID_TAG, tag.into()),
    }
}

/// "The writer takes audience, subject, a power byte and a citation of 0 (absent) or 32 bytes, and puts 66 or
/// 98 bytes at the front of the caller's buffer." "A refusal leaves store, version and buffers unchanged."
pub fn write(call: &Call, mistake: Mistake) -> Writing {
    let [audience, subject, citation] = [&call.audience, &call.subject, &call.citation].map(Vec::len);
    // "Its checks: lengths (1) in that order"
    let mut bad = vec![];
    bad.extend((audience != 32).then_some(audience));
    bad.extend((subject != 32).then_some(subject));
    bad.extend((citation != 0 && citation != 32).then_some(citation));
    let named = if mistake == LastLengthFirst { bad.last() } else { bad.first() };
    if let Some(length) = named {
        return call.refused(BAD_LENGTH, *length);
    }
    // "power byte (4), then 9"
    let tag = if citation == 0 { 0 } else { 1 };
    let payload = [&call.audience[..], &call.subject, &[call.power, tag], &call.citation].concat();
    let fits = payload.len() <= call.room();
    let is_power = rank(call.power, mistake).is_some();
    if !is_power && (fits || mistake != RoomBeforePower) {
        return call.refused(INVALID_TAG, call.power.into());
    }
    if !fits {
        let mut answer = call.refused(SMALL_BUFFER, payload.len());
        if mistake == WritesWhatFits {
            answer.area = call.area_with(&payload[..call.room()]);
        }
        return answer;
    }
    // "fills exactly its length from the front; later bytes stay"
    let mut answer = call.wrote(&payload);
    if mistake == ClearsTheRest {
        answer.area[call.buffer()][payload.len()..].fill(0);
    }
    answer
}

//! The published Rust's answers, by way of the oracle. It tests each key on the curve, and a key that it
//! refuses is outside the domain of document 01 ("The domain of demand 2 is keys that the Rust accepts"); nor
//! has it the refusals that document 01 adds. There it is not asked: the answer is none.
use crate::answers::{Call, Reading, Writing, INVALID_TAG, SMALL_BUFFER, TRAILING_BYTES, UNEXPECTED_END};
use oracle::published::{Bytes, Decode, DecodeError, Delegation, Digest, Encode, Identifier, Power};

/// What `Delegation::decode` says. What it found has to be the payload's own bytes, where document 01 has
/// them: it is encoded again.
pub fn read(payload: &[u8]) -> Option<Result<Reading, &'static str>> {
    let reading = match Delegation::decode(payload) {
        Ok(d) if d.encode().as_bytes() != payload => return Some(Err("other parts than the payload has")),
        Ok(d) => {
            let citation = d.citation.map_or(0, |digest| digest.as_slice().len());
            Reading::accepted(d.power as u8, d.power.rank(), citation)
        }
        Err(DecodeError::UnexpectedEnd) => Reading::refused(UNEXPECTED_END, 0),
        Err(DecodeError::TrailingBytes) => Reading::refused(TRAILING_BYTES, 0),
        Err(DecodeError::InvalidTag(byte)) => Reading::refused(INVALID_TAG, byte.into()),
        Err(DecodeError::InvalidField("audience" | "subject")) => return None,
        Err(_) => return Some(Err("an error for which document 01 has no number")),
    };
    Some(Ok(reading))
}

/// What `Delegation::encode` writes, with refusal 4 where `Power::try_from` refuses, and with 9 where what it
/// writes does not fit. `pool` has keys that are accepted already.
pub fn write(call: &Call, pool: &[Identifier]) -> Option<Writing> {
    let audience = key(&call.audience, pool)?;
    let subject = key(&call.subject, pool)?;
    let citation: Option<Bytes> = match &call.citation[..] {
        [] => None,
        bytes => Some(bytes.try_into().ok()?),
    };
    let Ok(power) = Power::try_from(call.power) else {
        return Some(call.refused(INVALID_TAG, call.power.into()));
    };
    let mut delegation = Delegation::new(audience, subject, power);
    if let Some(digest) = citation {
        delegation = delegation.reissue(Digest::from(digest));
    }
    let encoded = delegation.encode();
    let payload = encoded.as_bytes();
    if payload.len() > call.room() {
        return Some(call.refused(SMALL_BUFFER, payload.len()));
    }
    Some(call.wrote(payload))
}

fn key(bytes: &[u8], pool: &[Identifier]) -> Option<Identifier> {
    let bytes: Bytes = bytes.try_into().ok()?;
    let known = pool.iter().find(|key| *key.as_bytes() == bytes).copied();
    known.or_else(|| Identifier::from_bytes(bytes).ok())
}

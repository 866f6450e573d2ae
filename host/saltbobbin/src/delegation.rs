//! Delegation payloads: audience 32 bytes, subject 32, power 1, tag 1, then 32 bytes of citation if the tag
//! is 1. The issuer is whoever signed the payload and does not stand in it.
//!
//! [`decode`] and [`encode`] are the kernel's reader and writer. Any 32 bytes are a key to them: whether they
//! are a point of the curve is for the app to see to, as signatures and digests are.
use crate::{c, Power, Refusal};

/// A key.
pub type Key = [u8; KEY_LENGTH];

/// The digest of a certificate.
pub type Digest = [u8; DIGEST_LENGTH];

/// The bytes of a key.
pub const KEY_LENGTH: usize = 32;

/// The bytes of a digest.
pub const DIGEST_LENGTH: usize = 32;

/// Where the power byte stands in a payload.
pub const POWER_AT: usize = KEY_LENGTH + KEY_LENGTH;

/// Where the tag stands: 0 if no citation follows, 1 if one does.
pub const TAG_AT: usize = POWER_AT + 1;

/// Where the citation stands.
pub const CITATION_AT: usize = TAG_AT + 1;

/// The bytes of a payload without a citation.
pub const PAYLOAD_LENGTH: usize = CITATION_AT;

/// The bytes of a payload with one: room enough for any.
pub const CITED_LENGTH: usize = PAYLOAD_LENGTH + DIGEST_LENGTH;

/// What a payload says: `audience` may exercise `power` over `subject`. Its parts are references; those of a
/// payload that was read are parts of the caller's own slice.
#[derive(Clone, Copy, Debug, PartialEq, Eq, Hash)]
pub struct Delegation<'a> {
    /// The key that the delegation is issued to.
    pub audience: &'a Key,
    /// The key over which power is conveyed.
    pub subject: &'a Key,
    /// The level asked for.
    pub power: Power,
    /// The revocation past which the delegation is issued again. No decision rests on it.
    pub citation: Option<&'a Digest>,
}

/// Reads a payload.
///
/// The checks, in this order: under 66 bytes is [`Refusal::UnexpectedEnd`]; a power byte that is none of the
/// four is [`Refusal::InvalidTag`]; tag 0 with more than 66 bytes is [`Refusal::TrailingBytes`]; tag 1 with
/// under 98 is `UnexpectedEnd`, with over 98 `TrailingBytes`; any other tag is `InvalidTag`.
///
/// ```
/// use saltbobbin::{delegation::decode, Power, Refusal};
///
/// let mut payload = [0; 98];
/// payload[..32].fill(1); // the audience
/// payload[32..64].fill(2); // the subject
/// payload[64] = b'E';
/// payload[65] = 1; // a citation follows
/// payload[66..].fill(3);
///
/// let delegation = decode(&payload)?;
/// assert_eq!((delegation.audience, delegation.subject), (&[1; 32], &[2; 32]));
/// assert_eq!(delegation.power, Power::Edit);
/// let citation = delegation.citation.expect("the tag is 1");
/// assert_eq!(citation, &[3; 32]);
/// assert_eq!(citation.as_ptr(), payload[66..].as_ptr()); // not a copy
///
/// assert_eq!(decode(&payload[..97]), Err(Refusal::UnexpectedEnd));
/// # Ok::<(), Refusal>(())
/// ```
pub fn decode(payload: &[u8]) -> Result<Delegation<'_>, Refusal> {
    let answer = c::delegation_decode(payload);
    if let Some(refusal) = Refusal::from_number(answer.number, answer.beside) {
        return Err(refusal);
    }
    Ok(Delegation {
        audience: part(payload, 0),
        subject: part(payload, KEY_LENGTH),
        power: Power::from_byte(answer.power).expect("the kernel accepts the four powers alone"),
        citation: (answer.citation > 0).then(|| part(payload, CITATION_AT)),
    })
}

/// The key or digest at a place of an accepted payload.
fn part(payload: &[u8], at: usize) -> &[u8; 32] {
    payload[at..].first_chunk().expect("the kernel accepts payloads with all parts alone")
}

/// Writes a payload to the front of `out` and answers its length, 66 or with a citation 98; the bytes of
/// `out` behind it stay. It takes bytes as they come from outside: a citation is empty (absent) or 32 bytes.
///
/// The checks, in this order: the lengths of audience, subject and citation ([`Refusal::BadLength`]); the
/// power byte ([`Refusal::InvalidTag`]); the room ([`Refusal::SmallBuffer`]). A refusal leaves every byte of
/// `out` as it was.
///
/// ```
/// use saltbobbin::{delegation::encode, Refusal};
///
/// let mut out = [0xff; 70];
/// assert_eq!(encode(&[1; 32], &[2; 32], b'R', &[], &mut out), Ok(66));
/// assert_eq!((out[64], out[65], &out[66..]), (b'R', 0, &[0xff; 4][..]));
///
/// let before = out;
/// let (key, citation) = ([3; 32], [4; 32]);
/// assert_eq!(encode(&key, &key, b'R', &citation, &mut out), Err(Refusal::SmallBuffer(98)));
/// assert_eq!(encode(&key[1..], &key, b'X', &citation, &mut out), Err(Refusal::BadLength(31)));
/// assert_eq!(out, before);
/// ```
pub fn encode(
    audience: &[u8],
    subject: &[u8],
    power: u8,
    citation: &[u8],
    out: &mut [u8],
) -> Result<usize, Refusal> {
    let answer = c::delegation_encode(audience, subject, power, citation, out);
    match Refusal::from_number(answer.number, answer.beside) {
        None => Ok(answer.written),
        Some(refusal) => Err(refusal),
    }
}

impl Delegation<'_> {
    /// The bytes of its payload.
    pub fn encoded_length(&self) -> usize {
        match self.citation {
            None => PAYLOAD_LENGTH,
            Some(_) => CITED_LENGTH,
        }
    }

    /// Writes its payload to the front of `out`, as [`encode`] does, and answers the length. Only
    /// [`Refusal::SmallBuffer`] is left to refuse.
    ///
    /// ```
    /// use saltbobbin::{delegation::{decode, CITED_LENGTH}, Delegation, Power};
    ///
    /// let (audience, subject) = (&[1; 32], &[2; 32]);
    /// let delegation = Delegation { audience, subject, power: Power::Read, citation: None };
    /// let mut out = [0; CITED_LENGTH];
    /// let length = delegation.encode(&mut out)?;
    /// assert_eq!(length, delegation.encoded_length());
    /// assert_eq!(decode(&out[..length]), Ok(delegation));
    /// # Ok::<(), saltbobbin::Refusal>(())
    /// ```
    pub fn encode(&self, out: &mut [u8]) -> Result<usize, Refusal> {
        let citation = self.citation.map_or(&[][..], |digest| digest);
        encode(self.audience, self.subject, self.power.byte(), citation, out)
    }
}

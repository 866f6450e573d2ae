//! Stand-in: a statement whose issuer and digest are given, not worked out.
//!
//! Published, the digest is BLAKE3 over the frame, and a `Verified` exists only after its signature
//! was checked. Here `Verified::given` takes both on trust, so the driver can hand the published
//! `State` any identities, even one for two statements, which published code cannot meet.
use crate::{digest::Digest, identifier::Identifier};
use alloc::sync::Arc;
use core::{
    fmt,
    hash::{Hash, Hasher},
};
use keyhive_codec::{
    error::DecodeError,
    traits::{decode_exact, Decode, Encode, StreamDecode},
};

#[derive(Debug)]
pub struct VerifyError;

pub fn header(_: &[u8]) -> Result<(u8, u8), DecodeError> {
    unimplemented!("frames are not in the text")
}

/// A statement as received. Published, it holds the payload's bytes and the signature too.
pub struct Signed<T> {
    issuer: Identifier,
    digest: Digest<T>,
}

impl<T> Signed<T> {
    pub fn digest(&self) -> Digest<T> {
        self.digest
    }

    pub fn verify(self) -> Result<Verified<T>, VerifyError> {
        unimplemented!("signatures are not compared")
    }
}

impl<T> Clone for Signed<T> {
    fn clone(&self) -> Self {
        Signed { issuer: self.issuer, digest: self.digest }
    }
}

impl<T> PartialEq for Signed<T> {
    fn eq(&self, other: &Self) -> bool {
        self.issuer == other.issuer && self.digest == other.digest
    }
}

impl<T> Eq for Signed<T> {}

impl<T> Hash for Signed<T> {
    fn hash<H: Hasher>(&self, state: &mut H) {
        self.digest.hash(state)
    }
}

impl<T> fmt::Debug for Signed<T> {
    fn fmt(&self, f: &mut fmt::Formatter<'_>) -> fmt::Result {
        self.digest.fmt(f)
    }
}

impl<T> Encode for Signed<T> {
    fn encode_into(&self, _: &mut Vec<u8>) {
        unimplemented!("frames are not in the text")
    }
}

impl<T> Decode for Signed<T> {
    fn decode(bytes: &[u8]) -> Result<Self, DecodeError> {
        decode_exact(bytes)
    }
}

impl<T> StreamDecode for Signed<T> {
    fn decode_next(_: &[u8]) -> Result<(Self, &[u8]), DecodeError> {
        unimplemented!("frames are not in the text")
    }
}

/// A statement with its payload.
pub struct Verified<T> {
    payload: T,
    signed: Arc<Signed<T>>,
}

impl<T> Verified<T> {
    /// Not published: the statement with this issuer and this identity.
    pub fn given(issuer: Identifier, payload: T, digest: [u8; 32]) -> Self {
        let signed = Arc::new(Signed { issuer, digest: Digest::from(digest) });
        Verified { payload, signed }
    }

    pub fn payload(&self) -> &T {
        &self.payload
    }

    pub fn issuer(&self) -> Identifier {
        self.signed.issuer
    }

    pub fn digest(&self) -> Digest<T> {
        self.signed.digest
    }

    pub fn signed(&self) -> &Arc<Signed<T>> {
        &self.signed
    }
}

impl<T> PartialEq for Verified<T> {
    fn eq(&self, other: &Self) -> bool {
        self.signed == other.signed
    }
}

impl<T> Eq for Verified<T> {}

impl<T> Hash for Verified<T> {
    fn hash<H: Hasher>(&self, state: &mut H) {
        self.signed.hash(state)
    }
}

impl<T> fmt::Debug for Verified<T> {
    fn fmt(&self, f: &mut fmt::Formatter<'_>) -> fmt::Result {
        self.signed.fmt(f)
    }
}

//! The published types under one roof, and the little that is needed to fill a `State` and to read it:
//! insertions, keys that the Rust accepts, lists of identities by kind, levels as numbers.
pub use keyhive_codec::{
    error::DecodeError,
    traits::{Decode, Encode},
};
pub use keyhive_crypto::{digest::Digest, identifier::Identifier, verified::Verified};
pub use keyline::{
    certificate::{Certificate, CertificateId},
    contract::Version,
    delegation::Delegation,
    power::Power,
    revocation::{Revocation, RevocationId},
};
pub use keyline_memory::{
    rounds::{self, Rounds},
    state::State,
};

use crate::rng::Rng;

/// A key or a digest.
pub type Bytes = [u8; 32];

/// One insertion. The keys are ones that `Identifier::from_bytes` accepted; the digests are taken as given.
#[derive(Clone, Copy, Debug, PartialEq, Eq)]
pub enum Insertion {
    Delegation { digest: Bytes, issuer: Identifier, payload: Delegation },
    Revocation { digest: Bytes, issuer: Identifier, revoked: Bytes },
}

/// Whether it was added.
pub fn insert(state: &mut State<()>, insertion: &Insertion) -> bool {
    state.insert(match *insertion {
        Insertion::Delegation { digest, issuer, payload } => Verified::given(issuer, payload, digest).into(),
        Insertion::Revocation { digest, issuer, revoked } => {
            let mut payload = Revocation::new(Digest::from(revoked));
            if digest[0] % 2 == 1 {
                // a retention watermark in half of the stores: no answer may depend on it
                payload = payload.retaining([(issuer, ())].into());
            }
            Verified::given(issuer, payload, digest).into()
        }
    })
}

pub fn build(insertions: &[Insertion]) -> State<()> {
    let mut state = State::new();
    for insertion in insertions {
        insert(&mut state, insertion);
    }
    state
}

/// `Version` shows its number through `Debug` alone.
pub fn version_number(version: Version) -> u64 {
    let text = format!("{version:?}");
    text.trim_start_matches("Version(").trim_end_matches(')').parse().expect("a version is a number")
}

/// 0 for none, then one more than the rank.
pub fn level(power: Option<Power>) -> u8 {
    power.map_or(0, |p| p.rank() as u8 + 1)
}

/// Digests by kind, each list in the order in which the Rust gave it.
#[derive(Clone, Debug, Default, PartialEq, Eq)]
pub struct Ids {
    pub delegations: Vec<Bytes>,
    pub revocations: Vec<Bytes>,
}

/// The identities of a list, or `None` if a delegation came after a revocation.
pub fn ids(certificates: &[Certificate<()>]) -> Option<Ids> {
    let mut out = Ids::default();
    for certificate in certificates {
        match certificate.id() {
            CertificateId::Delegation(_) if !out.revocations.is_empty() => return None,
            CertificateId::Delegation(d) => out.delegations.push(d.into()),
            CertificateId::Revocation(r) => out.revocations.push(r.into()),
        }
    }
    Some(out)
}

/// Keys drawn from a seed: random bytes that `Identifier::from_bytes` accepts, which about half are.
pub fn keys(seed: u64, count: usize) -> Vec<Identifier> {
    let mut r = Rng::new(seed);
    let mut out = Vec::new();
    while out.len() < count {
        out.extend(Identifier::from_bytes(r.bytes()));
    }
    out
}

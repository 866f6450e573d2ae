//! Stand-in: the one trait that `identifier.rs` implements.
pub trait Verifiable {
    fn verifying_key(&self) -> ed25519_dalek::VerifyingKey;
}

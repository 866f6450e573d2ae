//! keyhive_crypto: the published `digest` and `identifier`, compiled where they stand in docs/src.
//! `hex`, `signable`, `verifiable` and `verified` are stand-ins, because their text is not given.
extern crate alloc;

pub mod hex;
pub mod signable;
pub mod verifiable;
pub mod verified;

#[rustfmt::skip]
#[path = "../../../../docs/src/keyhive_crypto/src/digest.rs"]
pub mod digest;
#[rustfmt::skip]
#[path = "../../../../docs/src/keyhive_crypto/src/identifier.rs"]
pub mod identifier;

//! keyline: every module that the text gives, compiled where it stands in docs/src.
extern crate alloc;

#[rustfmt::skip]
#[path = "../../../../docs/src/keyline/src/certificate.rs"]
pub mod certificate;
#[rustfmt::skip]
#[path = "../../../../docs/src/keyline/src/contract.rs"]
pub mod contract;
#[rustfmt::skip]
#[path = "../../../../docs/src/keyline/src/delegation.rs"]
pub mod delegation;
#[rustfmt::skip]
#[path = "../../../../docs/src/keyline/src/power.rs"]
pub mod power;
#[rustfmt::skip]
#[path = "../../../../docs/src/keyline/src/revocation.rs"]
pub mod revocation;

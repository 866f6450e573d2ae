//! Saltbobbin for an app in Rust: the proved kernel of crates/, called through C, with Rust's types.
//!
//! [`Kernel`] holds certificates and decides who may do what; [`delegation::decode`] and
//! [`delegation::encode`] read and write delegation payloads. Each answer is that of one call of a function that
//! is proved to meet its contract on every input, refusals too; this library only hands bytes over and gives the
//! answer Rust's types.
//!
//! ```
//! use saltbobbin::{delegation, Power, Refusal};
//!
//! let mut out = [0; delegation::CITED_LENGTH];
//! let length = delegation::encode(&[1; 32], &[2; 32], Power::Edit.byte(), &[], &mut out)?;
//! let delegation = delegation::decode(&out[..length])?;
//! assert_eq!((delegation.power, delegation.citation), (Power::Edit, None));
//! assert_eq!(delegation::decode(&out), Err(Refusal::TrailingBytes));
//! # Ok::<(), Refusal>(())
//! ```
//!
//! The C functions keep no state and no pointer, allocate nothing, and may be called from several threads at
//! once. What is believed and not proved: that the declarations in [`c`] are those of the proved functions (a
//! test compares the texts), and the few lines around each call.
#![deny(missing_docs)]
#![deny(unsafe_code)]

#[allow(unsafe_code)]
pub mod c;
pub mod delegation;
mod kernel;
mod power;
mod refusal;
pub mod script;

pub use delegation::Delegation;
pub use kernel::{
    Answer, Certificates, Kernel, Question, Standing, MOST_DELEGATIONS, MOST_KEYS, MOST_REVOCATIONS,
};
pub use power::Power;
pub use refusal::Refusal;

/// The examples of host/README.md, run as tests.
#[cfg(doctest)]
#[doc = include_str!("../../README.md")]
pub struct Readme;

/// Those of the repository's README.
#[cfg(doctest)]
#[doc = include_str!("../../../README.md")]
pub struct FirstPage;

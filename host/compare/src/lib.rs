//! The kernel held against the published Rust and against document 01 read plainly, all in one process: its
//! payload reader and writer, and whole stores by scripts. ../../README.md says how to run it.
//!
//! Every question goes to the kernel (through C, by way of saltbobbin) and to the plain reading, which also
//! has the refusals that the Rust lacks (1 and 9). It goes to the published Rust too, where that has an
//! answer: document 01's domain is keys that the Rust accepts, so a payload with another key is compared with
//! the plain reading alone.
pub mod answers;
pub mod calls;
pub mod check;
pub mod dialogue;
pub mod hostile;
pub mod kernel;
pub mod malformed;
pub mod mistakes;
pub mod payloads;
pub mod plain;
pub mod plain_store;
pub mod published;
pub mod published_store;
pub mod run;
pub mod slips;
pub mod sources;
pub mod store_run;
pub mod visits;

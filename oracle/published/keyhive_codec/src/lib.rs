//! keyhive_codec: the published `error` and `traits`, compiled where they stand in docs/src.
//! `encoded` is a stand-in, because its text is not given.
extern crate alloc;

pub mod encoded;

// The published text is not ours to lay out, here and in the crates above: hence the `skip`s.
#[rustfmt::skip]
#[path = "../../../../docs/src/keyhive_codec/src/error.rs"]
pub mod error;
#[rustfmt::skip]
#[path = "../../../../docs/src/keyhive_codec/src/traits.rs"]
pub mod traits;

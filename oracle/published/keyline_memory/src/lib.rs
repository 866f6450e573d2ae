//! keyline_memory: the published `state`, compiled where it stands in docs/src.
//! `collections` is a stand-in, because its text is not given; `rounds` is ours.
extern crate alloc;

pub mod rounds;

/// `Map` and `Set` of the published `state`. Hashed maps walk in another order in every process, ordered
/// ones in one order always: answers must not depend on which, and both are run.
pub mod collections {
    #[cfg(feature = "ordered")]
    pub use std::collections::{BTreeMap as Map, BTreeSet as Set};
    #[cfg(not(feature = "ordered"))]
    pub use std::collections::{HashMap as Map, HashSet as Set};
}

#[rustfmt::skip]
#[allow(clippy::unnecessary_fold)] // published so: `any` would stop at the first certificate added
#[path = "../../../../docs/src/keyline_memory/src/state.rs"]
pub mod state;

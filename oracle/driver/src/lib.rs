//! The driver over the published `State`. Recipes make stores, the published files answer every query of
//! document 01 about them, and `compare` holds the answers against `naive`, the same document's rules read
//! plainly. The programs in bin/ are described in ../../README.md.
pub mod compare;
pub mod mistakes;
pub mod naive;
pub mod published;
pub mod recipes;
pub mod rng;
pub mod shapes;
pub mod specimens;
pub mod store;
pub mod text;

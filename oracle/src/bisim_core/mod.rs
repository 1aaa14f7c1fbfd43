//! The Rust of crates/bisim-core, taken over; changes are marked `CHANGED` or `LEFT OUT` and listed in
//! docs/DIFFERENCES.md.

// The layout of the files is the published one.
#[rustfmt::skip]
pub mod ids;
#[rustfmt::skip]
pub mod semiring;
#[rustfmt::skip]
pub mod wlts;

pub use ids::{Interner, LabelId, StateId};
pub use semiring::{Real, Semiring, SignatureKey};
pub use wlts::{Edge, Lts, Wlts, WltsBuilder};

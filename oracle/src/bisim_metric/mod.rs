//! The Rust of crates/bisim-metric, taken over; changes are marked `CHANGED` or `LEFT OUT` and listed in
//! docs/DIFFERENCES.md.

// The layout of the files is the published one.
#[rustfmt::skip]
pub mod epsdelta;
#[rustfmt::skip]
pub mod flow;
#[rustfmt::skip]
pub mod kantorovich;

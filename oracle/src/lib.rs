//! The Rust side of the comparison: the Rust that was ported (`bisim_core`, `bisim_metric`), the refusals of
//! document 01, the answers, the inputs and the text form of cases.

pub mod answers;
pub mod args;
pub mod bisim_core;
pub mod bisim_metric;
pub mod card;
pub mod chain;
pub mod distance;
pub mod fuzz;
pub mod generate;
pub mod network;
#[cfg(feature = "ours")]
pub mod ours;
pub mod pairs;
pub mod refusals;
pub mod relation;
pub mod rows;
pub mod sample;
pub mod shrink;
pub mod text;
pub mod transport;

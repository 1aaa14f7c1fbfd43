//! When are two queue models alike? The proved library Tanqesha, safely from Rust: models that are built of transitions,
//! the relation between two of them, flows, transports, chains, distances, and the report of a card. README.md of the
//! repository says what is proved; each function here calls the exported one, which is total, refuses bad input by number and states its
//! complete outcome.
//!
//! ```
//! use tanqesha::{Model, Refusal, StateId, Transition, epsdelta};
//!
//! // one desk that serves two cases in an hour, and one that serves three in the hour
//! let desk = |rate| {
//!     let transitions = [Transition::new(0, 1, 1, 2.0), Transition::new(1, 2, 0, rate)];
//!     Model::build(2, Some(StateId(0)), &transitions)
//! };
//! let (left, right) = (desk(2.0)?, desk(3.0)?);
//! let waiting = [0, 1]; // a class for each state: how many cases there are
//! for (s, t) in &epsdelta(&left, &right, &waiting, &waiting, 0.0, 1.5)? {
//!     println!("left {} is alike to right {}", s.0, t.0);
//! }
//! # Ok::<(), Refusal>(())
//! ```
//!
//! Every call can be made from several threads at once: nothing is kept between calls. [`sys`] has the exported functions
//! one to one, over lent memory, for callers that keep their own columns; all `unsafe` code is there.
//!
//! Building this crate needs the static library (`oracle/library` of the repository makes it; or the folder that `TANQESHA_LIB`
//! names).

#![deny(unsafe_code)]
#![warn(missing_docs)]

pub mod card;
mod chain;
mod distance;
mod ids;
mod model;
mod network;
pub mod real;
mod refusal;
mod relation;
#[allow(unsafe_code)]
pub mod sys;
mod transport;

pub use chain::{Chain, common_rate, normalise, uniformise};
pub use distance::{Distance, MetricOptions, PairContribution, bisim_distance, distance};
pub use ids::{LabelId, Labels, StateId};
pub use model::{Columns, Edge, Model, Transition};
pub use network::{Flow, Network, Rows};
pub use refusal::Refusal;
pub use relation::{Pairs, Relation, epsdelta, epsdelta_bisimilar, min_epsilon};
pub use sys::Link;
pub use transport::{Cell, Plan, transport};

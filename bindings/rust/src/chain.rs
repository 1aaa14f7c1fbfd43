//! Chains: models at a common rate, with an observation of each state.

use crate::model::accepted;
use crate::sys::{self, ChainView};
use crate::{Model, Refusal, StateId};

/// A chain as it stands in memory: what [`uniformise`] makes, or what a caller writes. Nothing is assumed of it; what
/// takes a chain checks it.
#[derive(Debug, Clone, PartialEq)]
pub struct Chain {
    /// How many states.
    pub states: usize,
    /// How many entries.
    pub entries: usize,
    /// The initial state.
    pub initial: StateId,
    /// Where the entries of each state begin, and where the last ones end.
    pub offsets: Vec<u32>,
    /// The target of each entry.
    pub targets: Vec<u32>,
    /// The probability of each entry.
    pub probabilities: Vec<f64>,
    /// An observation of each state.
    pub observations: Vec<f64>,
}

impl Chain {
    pub(crate) fn view(&self) -> ChainView<'_> {
        ChainView {
            states: self.states,
            entries: self.entries,
            initial: self.initial.0,
            offsets: &self.offsets,
            targets: &self.targets,
            probabilities: &self.probabilities,
        }
    }

    /// The entries of a state, by target: where they lead, and with what probability. None where there is no such state
    /// or the lists don't hold its entries.
    #[must_use]
    pub fn row(&self, s: StateId) -> Option<impl Iterator<Item = (StateId, f64)>> {
        let begins = |s: usize| Some(*self.offsets.get(s)? as usize);
        let s = Some(s.0 as usize).filter(|s| *s < self.states)?;
        let places = begins(s)?..begins(s + 1)?;
        let targets = self.targets.get(places.clone())?;
        let probabilities = self.probabilities.get(places)?;
        let targets = targets.iter().map(|&t| StateId(t));
        Some(targets.zip(probabilities.iter().copied()))
    }
}

/// The greatest exit rate of two models, or 1 if nothing moves: a rate at which both can be made chains.
///
/// ```
/// use tanqesha::{Model, Refusal, Transition, common_rate};
///
/// let left = Model::build(2, None, &[Transition::new(0, 0, 1, 2.0)])?;
/// let right = Model::build(2, None, &[Transition::new(0, 0, 1, 4.0)])?;
/// assert_eq!(common_rate(&left, &right), 4.0);
/// # Ok::<(), Refusal>(())
/// ```
#[must_use]
pub fn common_rate(left: &Model, right: &Model) -> f64 {
    let mut rate = 0.0;
    accepted(sys::common_rate(&left.view(), &right.view(), &mut rate));
    rate
}

/// The chain of a model at a rate: each weight divided by it, and what is left to stay. A rate below an exit rate gives
/// rows that add up to more than 1; where a sum is over 1e-9 more, whatever takes the chain refuses it.
///
/// ```
/// use tanqesha::{Model, Refusal, StateId, Transition, uniformise};
///
/// let model = Model::build(2, Some(StateId(0)), &[Transition::new(0, 0, 1, 2.0)])?;
/// let chain = uniformise(&model, 4.0, &[1.0, 3.0])?;
/// let row = |s| chain.row(StateId(s)).unwrap().collect::<Vec<_>>();
/// assert_eq!(row(0), [(StateId(0), 0.5), (StateId(1), 0.5)]);
/// assert_eq!(row(1), [(StateId(1), 1.0)]);
/// # Ok::<(), Refusal>(())
/// ```
///
/// # Errors
/// [`Refusal::Store`] where a state has no observation, [`Refusal::NoInitialState`], [`Refusal::DiscountOrRate`] or
/// [`Refusal::Observation`], the first that applies.
pub fn uniformise(model: &Model, rate: f64, observations: &[f64]) -> Result<Chain, Refusal> {
    let (states, edges) = (model.columns().states, model.columns().edges);
    let mut chain = Chain {
        states,
        entries: 0,
        initial: model.columns().initial.unwrap_or(StateId(0)),
        offsets: vec![0; states + 1],
        targets: vec![0; edges + states],
        probabilities: vec![0.0; edges + states],
        observations: vec![0.0; states],
    };
    Refusal::check(sys::uniformise(
        &model.view(),
        rate,
        observations,
        &mut chain.offsets,
        &mut chain.targets,
        &mut chain.probabilities,
        &mut chain.observations,
        &mut chain.entries,
    ))?;
    chain.targets.truncate(chain.entries);
    chain.probabilities.truncate(chain.entries);
    Ok(chain)
}

/// Maps the observations of two chains to 0 to 1, by one least and one greatest over both, and says by how much these
/// differ; all are 0 if they don't. A refusal leaves both chains as they were.
///
/// ```
/// use tanqesha::{Model, Refusal, StateId, Transition, normalise, uniformise};
///
/// let model = Model::build(2, Some(StateId(0)), &[Transition::new(0, 0, 1, 2.0)])?;
/// let mut left = uniformise(&model, 2.0, &[2.0, 4.0])?;
/// let mut right = uniformise(&model, 2.0, &[3.0, 6.0])?;
/// assert_eq!(normalise(&mut left, &mut right)?, 4.0);
/// assert_eq!((left.observations, right.observations), (vec![0.0, 0.5], vec![0.25, 1.0]));
/// # Ok::<(), Refusal>(())
/// ```
///
/// # Errors
/// [`Refusal::OutOfRange`], [`Refusal::Store`], [`Refusal::Observation`] or [`Refusal::Chain`], the first that applies.
pub fn normalise(left: &mut Chain, right: &mut Chain) -> Result<f64, Refusal> {
    let mut scale = 0.0;
    let [mut left_seen, mut right_seen] =
        [&mut *left, &mut *right].map(|c| std::mem::take(&mut c.observations));
    let number = sys::normalise(
        &left.view(),
        &mut left_seen,
        &right.view(),
        &mut right_seen,
        &mut scale,
    );
    (left.observations, right.observations) = (left_seen, right_seen);
    Refusal::check(number)?;
    Ok(scale)
}

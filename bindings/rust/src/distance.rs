//! Distances of chains and of models, and the pairs of states that they come from.

use crate::sys::{self, PAIRS, RECORDS};
use crate::{Chain, Model, Refusal, StateId};

/// How near the distance is wanted, and how much is told.
#[derive(Debug, Clone, Copy, PartialEq)]
pub struct MetricOptions {
    /// How near; NaN or below 1e-12 counts as 1e-12.
    pub tolerance: f64,
    /// The most rounds of improvement, up to 10,000.
    pub max_rounds: usize,
    /// The most contributions that are listed, up to 64.
    pub top: usize,
}

impl Default for MetricOptions {
    /// 1e-6, 200 rounds, 10 contributions, as in the Rust that was ported.
    fn default() -> Self {
        Self {
            tolerance: 1e-6,
            max_rounds: 200,
            top: 10,
        }
    }
}

/// A pair's share of a distance.
#[derive(Debug, Clone, Copy, PartialEq)]
pub struct PairContribution {
    /// The state of the left chain or model.
    pub left: StateId,
    /// The state of the right one.
    pub right: StateId,
    /// How far the observations are apart, of models as scaled to 0 to 1.
    pub gap: f64,
    /// The discounted time spent in the pair.
    pub occupancy: f64,
    /// The product of the two.
    pub contribution: f64,
}

/// A distance, and how it arises.
#[derive(Debug, Clone, PartialEq)]
pub struct Distance {
    /// The distance, as near as the rounds brought it; 0 where none was asked for.
    pub value: f64,
    /// What the Rust gives as the bound of its error: the greatest change of the last round divided by 1 - γ; infinite without a
    /// round. That the true distance is within it is not claimed.
    pub error_bound: f64,
    /// The discount.
    pub gamma: f64,
    /// How many pairs of states there are to look at.
    pub pairs_explored: usize,
    /// The pairs that contribute most, largest first, equal ones in the order of their discovery.
    pub pairs: Vec<PairContribution>,
    /// How many rounds were made.
    pub rounds: usize,
}

/// The memory that a call needs and what it answers in.
struct Lent {
    lefts: Vec<u32>,
    rights: Vec<u32>,
    index: Vec<u64>,
    records: Vec<sys::PairContribution>,
    reply: Distance,
    contributions: usize,
}

impl Lent {
    fn new() -> Self {
        Self {
            lefts: vec![0; PAIRS],
            rights: vec![0; PAIRS],
            index: vec![0; PAIRS],
            records: vec![sys::PairContribution::default(); RECORDS],
            reply: Distance {
                value: 0.0,
                error_bound: 0.0,
                gamma: 0.0,
                pairs_explored: 0,
                pairs: Vec::new(),
                rounds: 0,
            },
            contributions: 0,
        }
    }

    /// What a call that was not refused gave.
    fn given(mut self) -> Distance {
        let records = self.records.iter().take(self.contributions);
        let pairs = records.map(|r| PairContribution {
            left: StateId(r.left),
            right: StateId(r.right),
            gap: r.gap,
            occupancy: r.occupancy,
            contribution: r.contribution,
        });
        self.reply.pairs = pairs.collect();
        self.reply
    }
}

/// The couplings that are stored at first.
const FIRST: usize = 1 << 16;

/// A call with as long a coupling store as it needs: what it gives where that is not refused as too short. `most` is always enough.
fn stored(most: usize, mut call: impl FnMut(&mut [u32], &mut [f64]) -> u32) -> u32 {
    let mut room = most.min(FIRST);
    loop {
        let number = call(&mut vec![0; room], &mut vec![0.0; room]);
        if number != Refusal::CouplingStore.number() || room == most {
            return number;
        }
        room = most.min(8 * room);
    }
}

/// As many couplings as there can be: each pair of entries at most once, and 4,096 pairs of rows of 32 entries.
fn most(left: usize, right: usize) -> usize {
    left.saturating_mul(right).min(PAIRS * 32 * 32)
}

/// The distance of the initial states of two chains, whose observations are from 0 to 1, at discount `gamma`. Memory is made for
/// the call, so that 18 is never given.
///
/// ```
/// use tanqesha::{Chain, MetricOptions, Refusal, StateId, distance};
///
/// // a state that is seen as 0, and one that is seen as 1
/// let still = |seen| Chain {
///     states: 1,
///     entries: 1,
///     initial: StateId(0),
///     offsets: vec![0, 1],
///     targets: vec![0],
///     probabilities: vec![1.0],
///     observations: vec![seen],
/// };
/// let d = distance(&still(0.0), &still(1.0), 0.5, MetricOptions::default())?;
/// assert_eq!((d.value, d.error_bound), (1.0 - 2f64.powi(-25), 2f64.powi(-25)));
/// assert_eq!((d.rounds, d.pairs_explored, d.pairs[0].occupancy), (1, 1, 1.0 - 2f64.powi(-39)));
/// # Ok::<(), Refusal>(())
/// ```
///
/// # Errors
/// [`Refusal::OutOfRange`], [`Refusal::Store`] (too few observations), [`Refusal::DiscountOrRate`], [`Refusal::Observation`],
/// [`Refusal::Chain`], [`Refusal::TopOrRounds`], [`Refusal::Pairs`], [`Refusal::Totals`] or [`Refusal::Occupancy`], the first that
/// applies.
pub fn distance(
    left: &Chain,
    right: &Chain,
    gamma: f64,
    options: MetricOptions,
) -> Result<Distance, Refusal> {
    let mut lent = Lent::new();
    let reply = &mut lent.reply;
    let number = stored(most(left.entries, right.entries), |places, masses| {
        sys::distance(
            &left.view(),
            &left.observations,
            &right.view(),
            &right.observations,
            gamma,
            options.tolerance,
            options.max_rounds,
            options.top,
            &mut lent.lefts,
            &mut lent.rights,
            &mut lent.index,
            places,
            masses,
            &mut lent.records,
            &mut reply.value,
            &mut reply.error_bound,
            &mut reply.gamma,
            &mut reply.pairs_explored,
            &mut lent.contributions,
            &mut reply.rounds,
        )
    });
    Refusal::check(number)?;
    Ok(lent.given())
}

/// The lists of a chain of this model.
fn chain_of(model: &Model) -> (Vec<u32>, Vec<u32>, Vec<f64>, Vec<f64>) {
    let (states, edges) = (model.columns().states, model.columns().edges);
    (
        vec![0; states + 1],
        vec![0; edges + states],
        vec![0.0; edges + states],
        vec![0.0; states],
    )
}

/// The distance of a state of the left model and one of the right, by what is observed of each state: both models are made chains at
/// their common rate, and the observations are scaled together to 0 to 1. Both need an initial state, which plays no other part.
///
/// ```
/// use tanqesha::{MetricOptions, Model, Refusal, StateId, Transition, bisim_distance};
///
/// // a desk that serves two cases in an hour, and one that serves three; what is seen is how many cases wait
/// let desk = |rate| {
///     let transitions = [Transition::new(0, 1, 1, 2.0), Transition::new(1, 2, 0, rate)];
///     Model::build(2, Some(StateId(0)), &transitions)
/// };
/// let (left, right) = (desk(2.0)?, desk(3.0)?);
/// let seen = [0.0, 1.0];
/// let at = |model| (model, StateId(0), &seen[..]);
/// let d = bisim_distance(at(&left), at(&right), 0.5, MetricOptions::default())?;
/// assert!(d.value > 0.0 && d.value < 0.1);
/// // alike states are at distance 0
/// assert_eq!(bisim_distance(at(&left), at(&left), 0.5, MetricOptions::default())?.value, 0.0);
/// # Ok::<(), Refusal>(())
/// ```
///
/// # Errors
/// [`Refusal::OutOfRange`] where a state is none of its model's, [`Refusal::Store`] (too few observations),
/// [`Refusal::NoInitialState`], [`Refusal::DiscountOrRate`], [`Refusal::Observation`], [`Refusal::TopOrRounds`],
/// [`Refusal::Pairs`], [`Refusal::Totals`] or [`Refusal::Occupancy`], the first that applies.
pub fn bisim_distance(
    (left, s, left_seen): (&Model, StateId, &[f64]),
    (right, t, right_seen): (&Model, StateId, &[f64]),
    gamma: f64,
    options: MetricOptions,
) -> Result<Distance, Refusal> {
    let mut lent = Lent::new();
    let reply = &mut lent.reply;
    let (mut a, mut b) = (chain_of(left), chain_of(right));
    let number = stored(most(a.1.len(), b.1.len()), |places, masses| {
        sys::bisim_distance(
            &left.view(),
            s.0,
            left_seen,
            &mut a.0,
            &mut a.1,
            &mut a.2,
            &mut a.3,
            &right.view(),
            t.0,
            right_seen,
            &mut b.0,
            &mut b.1,
            &mut b.2,
            &mut b.3,
            gamma,
            options.tolerance,
            options.max_rounds,
            options.top,
            &mut lent.lefts,
            &mut lent.rights,
            &mut lent.index,
            places,
            masses,
            &mut lent.records,
            &mut reply.value,
            &mut reply.error_bound,
            &mut reply.gamma,
            &mut reply.pairs_explored,
            &mut lent.contributions,
            &mut reply.rounds,
        )
    });
    Refusal::check(number)?;
    Ok(lent.given())
}

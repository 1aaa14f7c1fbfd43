//! OURS, no part of the Rust: the refusals of `common_rate`, `uniformise` and `normalise`, written from document 01 and its
//! readings by someone who had seen the definitions of this port.

use super::{
    MAX_STATES, any_outside, first_of, initial_outside, model_refusal, models_refusal, total,
};
use crate::args::{ChainArgs, NormaliseArgs, RateArgs, UniformiseArgs};

/// 11: the least rate of `uniformise`, 2^-40.
pub const MIN_RATE: f64 = 1.0 / (1_u64 << 40) as f64;
/// 11: the greatest rate of `uniformise`, 2^64.
pub const MAX_RATE: f64 = 18_446_744_073_709_551_616.0;
/// 12: how far an observation of `uniformise` and `normalise` may be from 0, 2^40.
pub const MAX_OBSERVATION: f64 = (1_u64 << 40) as f64;
/// 13: the entries of a row.
pub const MAX_ROW: usize = 32;
/// 13: by how much a row sum may differ from 1, and a probability be above it.
pub const ROW_APART: f64 = 1e-9;

/// `common_rate`: 3, 4, 5, 6.
pub fn common_rate_refusal(a: &RateArgs) -> u32 {
    models_refusal(&a.left, &a.right)
}

/// `uniformise`: 3, 4, 5, 6, 7, 8, 11, 12.
pub fn uniformise_refusal(a: &UniformiseArgs) -> u32 {
    let model = model_refusal(&a.model);
    if model != 0 {
        model
    } else if uniformise_short(a) {
        7
    } else if a.model.initial.is_none() {
        8
    } else if !(MIN_RATE..=MAX_RATE).contains(&a.rate) {
        11
    } else if any_observation_wrong(&a.observations, a.model.states) {
        12
    } else {
        0
    }
}

/// `normalise`: 4, 7, 12, 13, each of both chains before the next.
pub fn normalise_refusal(a: &NormaliseArgs) -> u32 {
    let either = |wrong: fn(&ChainArgs) -> bool| wrong(&a.left) || wrong(&a.right);
    if either(chain_misshapen) {
        4
    } else if either(observations_short) {
        7
    } else if either(|c| any_observation_wrong(&c.lists.observations, c.states)) {
        12
    } else if either(chain_wrong) {
        13
    } else {
        0
    }
}

// 4. State numbers, and the form of a chain handed in.

/// "A state number is not below its ... chain's state count; or a ... chain handed in has too few offsets (states + 1 are
/// needed) ... [or] entries ... for its counts, or offsets that don't run from 0 to its count of ... entries without
/// falling". Of the targets those of its entries are read (P47).
pub(super) fn chain_misshapen(c: &ChainArgs) -> bool {
    let l = &c.lists;
    initial_outside(Some(c.initial), c.states)
        || l.offsets.len() <= c.states
        || l.targets.len() < c.entries
        || l.probabilities.len() < c.entries
        || l.offsets[0] != 0
        || l.offsets[c.states] as usize != c.entries
        || !l.offsets[..=c.states].is_sorted()
        || any_outside(first_of(&l.targets, c.entries), c.states)
}

// 7. "A lent store or list is short".

/// "An observation per state, ... edges + states entries and states + 1 offsets for a chain that is made"; the chain has
/// an observation per state too (P46).
fn uniformise_short(a: &UniformiseArgs) -> bool {
    let (states, entries) = (a.model.states, a.model.edges + a.model.states);
    a.observations.len() < states
        || a.chain.offsets.len() <= states
        || a.chain.targets.len() < entries
        || a.chain.probabilities.len() < entries
        || a.chain.observations.len() < states
}

/// "An observation per state".
pub(super) fn observations_short(c: &ChainArgs) -> bool {
    c.lists.observations.len() < c.states
}

// 12. "An observation is NaN or ... (in `uniformise`, `normalise` and `bisim_distance`, outside -2^40 to 2^40)."

/// Those of the states; what follows is not read.
pub(super) fn any_observation_wrong(observations: &[f64], states: usize) -> bool {
    let wrong = |x: &f64| !(-MAX_OBSERVATION..=MAX_OBSERVATION).contains(x);
    first_of(observations, states).iter().any(wrong)
}

// 13. Chains.

/// "A chain has no or over 2,000 states, a row of ...": only for chains that pass 4.
pub(super) fn chain_wrong(c: &ChainArgs) -> bool {
    c.states == 0 || c.states > MAX_STATES || (0..c.states).any(|s| row_wrong(c, s))
}

/// "A row of no or over 32 entries, targets not strictly rising, a probability not above 0 or above 1 + 1e-9, or a row sum
/// over 1e-9 from 1", the sum left to right from zero (P45).
fn row_wrong(c: &ChainArgs, s: usize) -> bool {
    let l = &c.lists;
    let entries = l.offsets[s] as usize..l.offsets[s + 1] as usize;
    let (targets, row) = (&l.targets[entries.clone()], &l.probabilities[entries]);
    let improbable = |p: &f64| p.is_nan() || *p <= 0.0 || *p > 1.0 + ROW_APART;
    row.is_empty()
        || row.len() > MAX_ROW
        || targets.windows(2).any(|pair| pair[0] >= pair[1])
        || row.iter().any(improbable)
        || (total(row) - 1.0).abs() > ROW_APART
}

#[cfg(test)]
mod tests {
    use super::*;
    use crate::args::ChainLists;

    /// States that stay, with these observations.
    fn still(observations: &[f64]) -> ChainArgs {
        let states = observations.len();
        ChainArgs {
            states,
            entries: states,
            initial: 0,
            lists: ChainLists {
                offsets: (0..=states as u32).collect(),
                targets: (0..states as u32).collect(),
                probabilities: vec![1.0; states],
                observations: observations.to_vec(),
            },
        }
    }

    /// What the chain is refused for beside a good one, on either side.
    fn refused(c: ChainArgs) -> u32 {
        let good = || still(&[0.5]);
        let as_left = normalise_refusal(&NormaliseArgs {
            left: c.clone(),
            right: good(),
        });
        let as_right = normalise_refusal(&NormaliseArgs {
            left: good(),
            right: c,
        });
        assert_eq!(as_left, as_right);
        as_left
    }

    /// A chain of two states whose first row has these probabilities.
    fn split(row: [f64; 2]) -> u32 {
        let mut c = still(&[0.0, 1.0]);
        c.entries = 3;
        c.lists.offsets = vec![0, 2, 3];
        c.lists.targets = vec![0, 1, 1];
        c.lists.probabilities = vec![row[0], row[1], 1.0];
        refused(c)
    }

    #[test]
    fn states_at_2000_and_none() {
        assert_eq!(refused(still(&[0.5; 2_000])), 0);
        assert_eq!(refused(still(&[0.5; 2_001])), 13);
        assert_eq!(refused(still(&[])), 4);
    }

    #[test]
    fn observations_at_their_limits() {
        let at = |x: f64| refused(still(&[0.0, x]));
        for x in [MAX_OBSERVATION, -MAX_OBSERVATION, -0.0, 5e-324] {
            assert_eq!(at(x), 0, "{x}");
        }
        for x in [
            MAX_OBSERVATION.next_up(),
            -MAX_OBSERVATION.next_up(),
            f64::NAN,
            f64::INFINITY,
        ] {
            assert_eq!(at(x), 12, "{x}");
        }
    }

    #[test]
    fn probabilities_and_sums() {
        assert_eq!(split([0.5, 0.5]), 0);
        assert_eq!(split([0.5, 0.5 + 9.9e-10]), 0);
        assert_eq!(split([0.5, 0.5 + 1.1e-9]), 13);
        assert_eq!(split([0.5, 0.5 - 1.1e-9]), 13);
        assert_eq!(split([1.0, 0.0]), 13);
        assert_eq!(split([1.5, -0.5]), 13);
        assert_eq!(split([f64::NAN, 0.5]), 13);
        assert_eq!(split([1.0 + 5e-10, 1e-10]), 0);
    }

    #[test]
    fn the_order_of_the_checks() {
        let mut c = still(&[f64::NAN, 0.0]);
        c.lists.probabilities[0] = 2.0;
        assert_eq!(refused(c.clone()), 12);
        c.lists.observations.pop();
        assert_eq!(refused(c.clone()), 7);
        c.initial = 2;
        assert_eq!(refused(c.clone()), 4);
        // 12 of one chain comes before 13 of the other, and 4 before both
        let left = still(&[f64::NAN]);
        let mut right = still(&[0.5]);
        right.lists.probabilities[0] = 2.0;
        let mut both = NormaliseArgs { left, right };
        assert_eq!(normalise_refusal(&both), 12);
        both.right.lists.offsets[0] = 1;
        assert_eq!(normalise_refusal(&both), 4);
    }
}

//! OURS, no part of the Rust: the refusals of `distance` and `bisim_distance`, written from document 01 and its readings, without
//! sight of the definitions of these entries; those of chains and models are as in `chain` and above it.

use super::chain::{any_observation_wrong, chain_misshapen, chain_wrong, observations_short};
use super::{models_refusal, outside, total, totals_differ};
use crate::args::{BisimArgs, BisimSide, ChainArgs, DistanceArgs, Options, Rooms};
use crate::bisim_metric::kantorovich::Chain;
use std::collections::BTreeSet;

/// 7: the entries of a list of pairs.
pub const PAIR_LIST: usize = 4_096;
/// 7: the contribution records.
pub const RECORDS: usize = 64;
/// 14: the contributions that are asked for.
pub const MAX_TOP: usize = 64;
/// 14: the rounds.
pub const MAX_ROUNDS: usize = 10_000;
/// 17: the pairs.
pub const MAX_PAIRS: usize = 4_096;

/// `distance`: 4, 7, 11, 12, 13, 14, each of both chains before the next.
pub fn distance_refusal(a: &DistanceArgs) -> u32 {
    let either = |wrong: fn(&ChainArgs) -> bool| wrong(&a.left) || wrong(&a.right);
    if either(chain_misshapen) {
        4
    } else if either(observations_short) || rooms_short(&a.rooms) {
        7
    } else if gamma_wrong(a.options.gamma) {
        11
    } else if either(observation_outside_1) {
        12
    } else if either(chain_wrong) {
        13
    } else if options_wrong(&a.options) {
        14
    } else {
        0
    }
}

/// `bisim_distance`: 3, 4 (its two states too), 5, 6, 7, 8, 11, 12, 14.
pub fn bisim_distance_refusal(a: &BisimArgs) -> u32 {
    let either = |wrong: fn(&BisimSide) -> bool| wrong(&a.left) || wrong(&a.right);
    let models = models_refusal(&a.left.model, &a.right.model);
    if models == 3 {
        3
    } else if models == 4 || either(state_outside) {
        4
    } else if models != 0 {
        models
    } else if either(side_short) || rooms_short(&a.rooms) {
        7
    } else if either(|side| side.model.initial.is_none()) {
        8
    } else if gamma_wrong(a.options.gamma) {
        11
    } else if either(|side| any_observation_wrong(&side.observations, side.model.states)) {
        12
    } else if options_wrong(&a.options) {
        14
    } else {
        0
    }
}

/// What the part of `distance` below the checks refuses, but for 19: 17, 18, and 16 where a round is run (B28).
pub fn run_refusal(left: &Chain, right: &Chain, rooms: &Rooms, max_rounds: usize) -> u32 {
    let Some(pairs) = discovered(left, right) else {
        return 17;
    };
    if rooms.places.min(rooms.masses) < couplings(left, right, &pairs) {
        18
    } else if max_rounds > 0 && pairs.iter().any(|&(x, y)| uneven(left, right, x, y)) {
        16
    } else {
        0
    }
}

// 4. "A state number is not below its model's ... state count".

fn state_outside(side: &BisimSide) -> bool {
    outside(side.state, side.model.states)
}

// 7. "A lent store or list is short".

/// "4,096 per list of pairs, 64 contribution records"; the ordered search of pairs is such a list (P50).
fn rooms_short(rooms: &Rooms) -> bool {
    rooms.lefts < PAIR_LIST
        || rooms.rights < PAIR_LIST
        || rooms.index < PAIR_LIST
        || rooms.records < RECORDS
}

/// "An observation per state, ... edges + states entries and states + 1 offsets for a chain that is made", and its
/// observations (P46).
fn side_short(side: &BisimSide) -> bool {
    let (states, entries) = (side.model.states, side.model.edges + side.model.states);
    let rooms = &side.rooms;
    side.observations.len() < states
        || rooms.offsets <= states
        || rooms.targets < entries
        || rooms.probabilities < entries
        || rooms.observations < states
}

// 11. "γ is not above 0 and below 1 ..., NaN included."

fn gamma_wrong(gamma: f64) -> bool {
    gamma.is_nan() || gamma <= 0.0 || gamma >= 1.0
}

// 12. "An observation is NaN or outside 0 to 1".

/// Those of the states; -0 is not outside (P49).
fn observation_outside_1(c: &ChainArgs) -> bool {
    let wrong = |x: &f64| x.is_nan() || *x < 0.0 || *x > 1.0;
    c.lists.observations[..c.states].iter().any(wrong)
}

// 14. "`top` is over 64 or `max_rounds` over 10,000."

fn options_wrong(options: &Options) -> bool {
    options.top > MAX_TOP || options.max_rounds > MAX_ROUNDS
}

// 17. "Discovery meets pair 4,097".

/// The pairs that are reached from the initial one, whatever the order; none where there are over 4,096 (P51).
pub fn discovered(left: &Chain, right: &Chain) -> Option<BTreeSet<(usize, usize)>> {
    let first = (left.initial, right.initial);
    let (mut pairs, mut open) = (BTreeSet::from([first]), vec![first]);
    while let Some((x, y)) = open.pop() {
        for &(x2, _) in &left.rows[x] {
            for &(y2, _) in &right.rows[y] {
                if pairs.insert((x2, y2)) {
                    open.push((x2, y2));
                }
            }
        }
        if pairs.len() > MAX_PAIRS {
            return None;
        }
    }
    Some(pairs)
}

// 18. "The coupling store is shorter than the sum, over discovered pairs, of the two row lengths multiplied."

/// That sum; each of the store's two columns needs it (P52).
pub fn couplings(left: &Chain, right: &Chain, pairs: &BTreeSet<(usize, usize)>) -> usize {
    let cells = |&(x, y): &(usize, usize)| left.rows[x].len() * right.rows[y].len();
    pairs.iter().map(cells).sum()
}

// 16. "`transport` is given totals ta and tb that differ by over 1e-9 × max(ta, 1)."

/// Of the pair's rows, the right one scaled to the left one's total; a row of one entry is not given to `transport` (P53).
fn uneven(left: &Chain, right: &Chain, x: usize, y: usize) -> bool {
    let masses = |row: &[(usize, f64)]| row.iter().map(|entry| entry.1).collect::<Vec<_>>();
    let (a, b) = (masses(&left.rows[x]), masses(&right.rows[y]));
    let (ta, tb) = (total(&a), total(&b));
    let scaled: Vec<f64> = b.iter().map(|p| p * ta / tb).collect();
    a.len() > 1 && b.len() > 1 && totals_differ(ta, total(&scaled))
}

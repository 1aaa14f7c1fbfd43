//! Inputs of `common_rate` and `uniformise`: models with self-loops, equal targets and order-sensitive weights, rates about
//! the exit rates and at the limits, observations at the limits, and a fault for each number.

use super::build::{self, Size, Transition, from_transitions, lengthen_columns};
use super::model::{damage, star_model};
use super::relation::{self, without_edges};
use super::{GREATEST_JOINED, GREATEST_WEIGHT, LEAST_WEIGHT, Rng, all_digits, place, shorten};
use crate::answers::{from_columns, handed_in};
use crate::args::{ChainLists, ModelArgs, RateArgs, UniformiseArgs};
use crate::bisim_metric::kantorovich::common_rate;

/// 2^64, the greatest rate.
pub const GREATEST_RATE: f64 = 18_446_744_073_709_551_616.0;

/// Rates that are refused.
pub const BAD_RATES: &[f64] = &[
    LEAST_WEIGHT.next_down(),
    GREATEST_RATE.next_up(),
    0.0,
    -0.0,
    -1.0,
    5e-324,
    f64::INFINITY,
    f64::NEG_INFINITY,
    f64::NAN,
];

/// Observations at the limits, zeros and others.
pub const GOOD_OBSERVATIONS: &[f64] = &[
    -GREATEST_WEIGHT,
    GREATEST_WEIGHT,
    GREATEST_WEIGHT.next_down(),
    0.0,
    -0.0,
    5e-324,
    -5e-324,
    0.1,
    1.0,
    1.0f64.next_up(),
];

/// Observations that are refused.
pub const BAD_OBSERVATIONS: &[f64] = &[
    GREATEST_WEIGHT.next_up(),
    -GREATEST_WEIGHT.next_up(),
    f64::INFINITY,
    f64::NEG_INFINITY,
    f64::NAN,
];

/// A model that `build` takes, as it is handed in.
fn model(states: usize, initial: Option<u32>, list: &[Transition]) -> ModelArgs {
    handed_in(&from_transitions(states, initial, list)).expect("a good model")
}

/// `uniformise` with just enough room.
pub fn lent(model: ModelArgs, rate: f64, observations: Vec<f64>) -> UniformiseArgs {
    let entries = model.edges.min(4_096) + model.states.min(2_000);
    UniformiseArgs {
        chain: ChainLists::filled(
            model.states.min(2_000) + 1,
            entries,
            model.states.min(2_000),
        ),
        model,
        rate,
        observations,
    }
}

/// State 0 with these weights: to 1, by a third label to 1 again, to itself, and to 2 by the label between.
fn fan(weights: [f64; 4]) -> ModelArgs {
    let [a, b, c, d] = weights;
    let list = [(0, 7, 1, a), (0, 7, 0, c), (0, 5, 2, d), (0, 3, 1, b)];
    model(3, Some(0), &list)
}

/// All pairs of fans of few weights: zeros, self-loops, sums that depend on the order.
pub fn short_rates(f: &mut dyn FnMut(RateArgs)) {
    const WEIGHTS: [[f64; 3]; 4] = [
        [0.2, 0.1, 0.0],
        [0.1, 0.3, 0.0],
        [0.0, 5.0, 0.5],
        [0.3, 0.2, 0.0],
    ];
    all_digits(&[3; 8], &mut |d| {
        let fan = |d: &[usize]| fan([0, 1, 2, 3].map(|i| WEIGHTS[i][d[i]]));
        let (left, right) = (fan(&d[..4]), fan(&d[4..]));
        f(RateArgs { left, right });
    });
}

/// All fans of few weights, with rates about their exit rates.
pub fn short_chains(f: &mut dyn FnMut(UniformiseArgs)) {
    const WEIGHTS: [f64; 5] = [0.0, 0.1, 0.3, 1.0, GREATEST_WEIGHT];
    const RATES: [f64; 6] = [0.1, 0.4, 1.0, 1.3, LEAST_WEIGHT, GREATEST_RATE];
    all_digits(&[5, 5, 2, 5, 6, 3], &mut |d| {
        let model = fan([WEIGHTS[d[0]], WEIGHTS[d[1]], WEIGHTS[d[2]], WEIGHTS[d[3]]]);
        let rate = RATES[d[4]];
        let rate = [rate, rate.next_up(), rate.next_down()][d[5]];
        f(lent(model, rate, vec![0.5, -0.0, 1e-9]));
    });
}

/// Every list one short, just long enough, or longer.
pub fn short_lengths(f: &mut dyn FnMut(UniformiseArgs)) {
    let base = lent(fan([0.1, 0.3, 0.3, 1.0]), 2.0, vec![1.0, 2.0, 3.0]);
    all_digits(&[3; 5], &mut |d| {
        let mut a = base.clone();
        let room = ChainLists::filled(5, 9, 4);
        a.observations.extend([f64::NAN]);
        a.observations.truncate(2 + d[0]);
        a.chain = ChainLists {
            offsets: room.offsets[..3 + d[1]].to_vec(),
            targets: room.targets[..6 + d[2]].to_vec(),
            probabilities: room.probabilities[..6 + d[3]].to_vec(),
            observations: room.observations[..2 + d[4]].to_vec(),
        };
        f(a);
    });
}

/// One state left with probability 1 - k × 2^-53 at rate 1, so that what is left to stay is about 1e-15.
pub fn at_the_margin(k: u32) -> UniformiseArgs {
    let weight = 1.0 - f64::from(k) * 2f64.powi(-53);
    let model = model(2, Some(1), &[(0, 7, 1, weight), (1, 7, 1, 3.0)]);
    lent(model, 1.0, vec![0.0, 1.0])
}

/// The weights of a state's edges to others, added in order.
fn exits(m: &ModelArgs) -> Vec<f64> {
    let c = &m.columns;
    let exit = |s: usize| -> f64 {
        let edges = c.offsets[s] as usize..c.offsets[s + 1] as usize;
        let others = edges.filter(|&e| c.edge_targets[e] as usize != s);
        others.map(|e| c.edge_weights[e]).sum()
    };
    (0..m.states).map(exit).collect()
}

/// A rate that is accepted: the common rate, one about an exit rate, at a limit, or any.
fn good_rate(rng: &mut Rng, m: &ModelArgs) -> f64 {
    let rust = from_columns(m);
    let common = common_rate(&rust, &rust);
    let exit = match exits(m).as_slice() {
        [] => 1.0,
        exits => rng.pick(exits),
    };
    let steps = 1.0 + f64::from(rng.below(20) as u32) * 2f64.powi(-53);
    let rate = match rng.below(12) {
        0..4 => common,
        4 | 5 => exit,
        6 => exit * steps,
        7 => common * steps,
        8 => common * (1.0 + rng.unit()),
        9 => rng.pick(&[LEAST_WEIGHT, LEAST_WEIGHT.next_up(), 1.0]),
        10 => rng.pick(&[GREATEST_RATE, GREATEST_RATE.next_down()]),
        _ => 2f64.powi(rng.below(100) as i32 - 38),
    };
    let rate = rng.pick(&[rate, rate, rate.next_up(), rate.next_down()]);
    if (LEAST_WEIGHT..=GREATEST_RATE).contains(&rate) {
        rate
    } else {
        common
    }
}

/// An observation of each state.
pub fn observations(rng: &mut Rng, states: usize) -> Vec<f64> {
    let style = rng.below(4);
    let mut observe = || match style {
        0 => rng.pick(GOOD_OBSERVATIONS),
        1 => rng.below(3) as f64,
        2 => (rng.unit() - 0.5) * 2f64.powi(rng.below(41) as i32),
        _ => rng.unit(),
    };
    (0..states).map(|_| observe()).collect()
}

/// A good model of few states, often with equal targets and self-loops, or a star of up to 31 targets.
fn good_model(rng: &mut Rng) -> ModelArgs {
    if rng.once_in(20) {
        let targets = 28 + rng.below(4);
        return star_model(rng, targets);
    }
    let size = Size {
        states: 1 + rng.below(6),
        given: rng.below(20),
        labels: 1 + rng.below(4),
        targets: 1 + rng.below(5),
    };
    handed_in(&build::good(rng, size)).expect("a good model")
}

/// Arguments of `uniformise` that are accepted.
pub fn good(rng: &mut Rng) -> UniformiseArgs {
    let mut m = good_model(rng);
    m.initial = Some(rng.below(m.states) as u32);
    let (rate, seen) = (good_rate(rng, &m), observations(rng, m.states));
    lent(m, rate, seen)
}

/// A way to change the arguments.
pub type Change = fn(&mut Rng, &mut UniformiseArgs);

/// Changes after which accepted arguments of at least one edge are refused.
pub const FAULTS: &[(u32, &str, Change)] = &[
    (3, "states over 2,000", |rng, a| {
        a.model.states = rng.pick(&[2_001, 1 << 32, usize::MAX])
    }),
    (3, "edges over 4,096", |rng, a| {
        a.model.edges = rng.pick(&[4_097, 1 << 32, usize::MAX])
    }),
    (3, "labels over 256", |rng, a| {
        a.model.labels = rng.pick(&[257, 1 << 32, usize::MAX])
    }),
    (4, "initial state", |rng, a| {
        a.model.initial = Some(rng.pick(&[a.model.states as u32, u32::MAX]))
    }),
    (4, "offsets short", |_, a| {
        a.model.columns.offsets.truncate(a.model.states)
    }),
    (4, "target", |rng, a| {
        let e = place(rng, a.model.edges);
        a.model.columns.edge_targets[e] = a.model.states as u32
    }),
    (4, "zero weight", |rng, a| {
        let e = place(rng, a.model.edges);
        a.model.columns.edge_weights[e] = rng.pick(&[0.0, -0.0])
    }),
    (5, "weight", |rng, a| {
        let e = place(rng, a.model.edges);
        a.model.columns.edge_weights[e] = rng.pick(super::model::BAD)
    }),
    (6, "32 targets", |rng, a| {
        a.model = star_model(rng, 32);
        a.model.initial = Some(0)
    }),
    (7, "observations short", |rng, a| {
        a.observations.truncate(a.model.states);
        shorten(rng, &mut a.observations)
    }),
    (7, "offsets of the chain short", |rng, a| {
        a.chain.offsets.truncate(a.model.states + 1);
        shorten(rng, &mut a.chain.offsets)
    }),
    (7, "targets short", |rng, a| {
        a.chain.targets.truncate(a.model.edges + a.model.states);
        shorten(rng, &mut a.chain.targets)
    }),
    (7, "probabilities short", |rng, a| {
        let room = a.model.edges + a.model.states;
        a.chain.probabilities.truncate(room);
        shorten(rng, &mut a.chain.probabilities)
    }),
    (7, "observations of the chain short", |rng, a| {
        a.chain.observations.truncate(a.model.states);
        shorten(rng, &mut a.chain.observations)
    }),
    (8, "no initial state", |_, a| a.model.initial = None),
    (11, "rate", |rng, a| a.rate = rng.pick(BAD_RATES)),
    (12, "observation", |rng, a| {
        let s = place(rng, a.model.states);
        a.observations[s] = rng.pick(BAD_OBSERVATIONS)
    }),
];

/// Changes that leave accepted arguments accepted.
pub const HARMLESS: &[(&str, Change)] = &[
    ("columns longer", |rng, a| {
        lengthen_columns(rng, &mut a.model.columns)
    }),
    ("more observations", |rng, a| {
        a.observations
            .extend([f64::NAN, 1.0][..=rng.below(2)].iter())
    }),
    ("room", |rng, a| {
        let c = &a.chain;
        let more = rng.below(4);
        a.chain = ChainLists::filled(
            c.offsets.len() + rng.below(3),
            c.targets.len() + more,
            c.observations.len() + rng.below(3),
        )
    }),
    ("weight at a limit", |rng, a| {
        if a.model.edges > 0 {
            let e = place(rng, a.model.edges);
            a.model.columns.edge_weights[e] = rng.pick(&[LEAST_WEIGHT, GREATEST_JOINED])
        }
    }),
    ("observation at a limit", |rng, a| {
        let s = place(rng, a.model.states);
        a.observations[s] = rng.pick(&[GREATEST_WEIGHT, -GREATEST_WEIGHT])
    }),
];

/// True where every change can be made.
fn intact(a: &UniformiseArgs) -> bool {
    let (m, c) = (&a.model, &a.model.columns);
    let columns = [c.edge_targets.len(), c.edge_weights.len()];
    (1..=4_096).contains(&m.edges)
        && (1..=2_000).contains(&m.states)
        && columns.into_iter().all(|length| length >= m.edges)
        && a.observations.len() >= m.states
}

/// Accepted arguments in which every change can be made.
pub fn good_intact(rng: &mut Rng) -> UniformiseArgs {
    loop {
        let a = good(rng);
        if intact(&a) {
            return a;
        }
    }
}

/// Good or damaged: one change in three that is harmless, up to two faults, and what [`damage`] does.
pub fn random(rng: &mut Rng) -> UniformiseArgs {
    let mut a = good(rng);
    if rng.once_in(3) {
        rng.pick(HARMLESS).1(rng, &mut a);
    }
    for _ in 0..rng.pick(&[0, 0, 1, 1, 2]) {
        if intact(&a) {
            rng.pick(FAULTS).2(rng, &mut a);
        }
    }
    if rng.once_in(8) {
        damage(rng, &mut a.model);
    }
    a
}

/// A model at or near the limits of states and transitions.
fn large(rng: &mut Rng) -> UniformiseArgs {
    let mut args = build::large_random(rng);
    args.initial = args.initial.or(Some(0));
    let m = handed_in(&args).unwrap_or_else(|| without_edges(2_000));
    let seen = observations(rng, m.states);
    let rate = good_rate(rng, &m);
    lent(m, rate, seen)
}

/// Everything that `common_rate` is compared on.
pub fn rates(rng: &mut Rng, scale: usize, f: &mut dyn FnMut(RateArgs)) {
    short_rates(f);
    for i in 0..20_000 * scale {
        let base = match i % 100 {
            0 => relation::stars(rng),
            _ => relation::good(rng),
        };
        let a = relation::random(rng, base);
        let (left, right) = (a.left, a.right);
        f(RateArgs { left, right });
    }
    for _ in 0..40 * scale {
        let (left, right) = (large(rng).model, large(rng).model);
        f(RateArgs { left, right });
    }
}

/// Everything that `uniformise` is compared on.
pub fn chains(rng: &mut Rng, scale: usize, f: &mut dyn FnMut(UniformiseArgs)) {
    short_chains(f);
    short_lengths(f);
    (0..64).for_each(|k| f(at_the_margin(k)));
    for (_, _, change) in FAULTS {
        for _ in 0..120 * scale {
            let mut a = good_intact(rng);
            change(rng, &mut a);
            f(a);
        }
    }
    for i in 0..40_000 * scale {
        f(match i % 400 {
            0 => large(rng),
            _ => random(rng),
        });
    }
}

#[cfg(test)]
mod tests {
    use super::*;
    use crate::answers::Oracle;
    use crate::refusals::uniformise_refusal;
    use crate::rows::{ROWS, floors};
    use crate::text::Value;
    use std::collections::BTreeMap;

    #[test]
    fn every_fault_is_refused_and_nothing_harmless_is() {
        let rng = &mut Rng::new(1);
        for _ in 0..500 {
            let base = good_intact(rng);
            assert_eq!(uniformise_refusal(&base), 0, "{base:?}");
            for (number, name, change) in FAULTS {
                let mut a = base.clone();
                change(rng, &mut a);
                assert_eq!(uniformise_refusal(&a), *number, "{name}: {a:?}");
            }
            for (name, change) in HARMLESS {
                let mut a = base.clone();
                change(rng, &mut a);
                assert_eq!(uniformise_refusal(&a), 0, "{name}: {a:?}");
            }
        }
    }

    /// Answers by refusal number.
    #[derive(Default)]
    struct Counts(BTreeMap<u32, u64>);

    impl Counts {
        fn count(&mut self, a: &impl Oracle) {
            let Value::Answer(refusal, _) = a.oracle().remove(0).value else {
                panic!("no answer");
            };
            *self.0.entry(refusal).or_default() += 1;
        }

        fn reach_the_floors_of(&self, name: &str) {
            let (least, each) = floors(name);
            let row = ROWS.iter().find(|row| row.0 == name).expect("a row");
            let numbers: Vec<u32> = [&[0], row.1].concat();
            assert_eq!(self.0.keys().copied().collect::<Vec<_>>(), numbers);
            assert!(self.0.values().all(|n| *n >= each), "{:?}", self.0);
            assert!(self.0.values().sum::<u64>() >= least, "{:?}", self.0);
        }
    }

    #[test]
    fn floors_are_reached() {
        let rng = &mut Rng::new(1);
        let mut counts = Counts::default();
        rates(rng, 1, &mut |a| counts.count(&a));
        counts.reach_the_floors_of("common_rate");
        let mut counts = Counts::default();
        chains(rng, 1, &mut |a| counts.count(&a));
        counts.reach_the_floors_of("uniformise");
        let mut counts = Counts::default();
        crate::generate::normalise::pairs(rng, 1, &mut |a| counts.count(&a));
        counts.reach_the_floors_of("normalise");
    }

    #[test]
    fn what_is_left_to_stay_counts_from_10_parts_on() {
        for k in 0..64 {
            let entries = at_the_margin(k).chain().rows[0].len();
            assert_eq!(entries, if k < 10 { 1 } else { 2 }, "{k}");
        }
    }

    /// Exit rates added target by target, not edge by edge, are other numbers on some inputs.
    #[test]
    fn the_order_of_the_sums_shows() {
        let mut differ = 0;
        short_rates(&mut |a| {
            let c = &a.left.columns;
            let mut joined: BTreeMap<u32, f64> = BTreeMap::new();
            let edges = 0..c.offsets[1] as usize;
            for e in edges.filter(|&e| c.edge_targets[e] != 0) {
                *joined.entry(c.edge_targets[e]).or_default() += c.edge_weights[e];
            }
            differ += usize::from(exits(&a.left)[0] != joined.values().sum());
        });
        assert!(differ >= 50, "{differ}");
    }

    /// Chains of which a row adds up to more than 1, and chains of which each state stays too.
    #[test]
    fn rates_are_below_and_above_the_exit_rates() {
        let rng = &mut Rng::new(2);
        let (mut below, mut above) = (0, 0);
        for _ in 0..1_000 {
            let a = good(rng);
            let exits = exits(&a.model);
            below += usize::from(exits.iter().any(|&x| x > a.rate));
            above += usize::from(exits.iter().all(|&x| x < a.rate));
        }
        assert!(below >= 100 && above >= 100, "{below} {above}");
    }
}

//! Arguments of the relation: two models with classes, tolerances and lent bytes.

use super::build::{self, Size, Transition, from_transitions};
use super::lines::cascade;
use super::metric::{self, EPSILONS, GOOD_EPSILONS, GOOD_RHOS, RHOS};
use super::misfits::{FAULTS, HARMLESS, intact};
use super::steps::{at_a_step, at_the_limit};
use super::{Rng, all_digits, model};
use crate::answers::handed_in;
use crate::args::{BuildArgs, Columns, ModelArgs, RelationArgs};

/// Most states of both models together.
pub const MOST: usize = 2_000;

/// Bytes of a relation over so many states.
pub fn needed(total: usize) -> usize {
    total.saturating_mul(total).div_ceil(8)
}

/// Bytes as they are lent: none is zero, and each differs from the next.
pub fn pattern(length: usize) -> Vec<u8> {
    (0..length).map(|i| 1 + (i * 7 % 255) as u8).collect()
}

/// The two models, all states of one class, at ε = 0 and ρ = 1, with just enough bytes.
pub fn of_models(left: ModelArgs, right: ModelArgs) -> RelationArgs {
    RelationArgs {
        left_classes: vec![0; left.states],
        right_classes: vec![0; right.states],
        epsilon: 0.0,
        rho: 1.0,
        relation: pattern(needed(left.states + right.states)),
        left,
        right,
    }
}

/// The same of two inputs of `build`, which takes them.
pub fn between(left: &BuildArgs, right: &BuildArgs) -> RelationArgs {
    let [left, right] = [left, right].map(|m| handed_in(m).expect("a good model"));
    of_models(left, right)
}

/// A model of so many states without edges.
pub fn without_edges(states: usize) -> ModelArgs {
    ModelArgs {
        states,
        edges: 0,
        labels: 0,
        initial: states.checked_sub(1).map(|s| s as u32),
        columns: Columns {
            offsets: vec![0; states + 1],
            ..Columns::filled(0, 0, 0)
        },
    }
}

/// State 0 with these rates to states 1, 2 and so on; a rate of 0 is no edge.
pub fn fan(rates: &[f64]) -> BuildArgs {
    let targets = rates.iter().zip(1..);
    let list: Vec<Transition> = targets.map(|(&rate, t)| (0, 7, t, rate)).collect();
    from_transitions(rates.len() + 1, Some(0), &list)
}

/// Gives each state its number as class.
pub fn number_classes(a: &mut RelationArgs) {
    a.left_classes = (0..a.left.states as u32).collect();
    a.right_classes = (0..a.right.states as u32).collect();
}

/// Classes of so many kinds, as a rule the same for states of the same number.
fn some_classes(rng: &mut Rng, a: &mut RelationArgs, kinds: usize) {
    let most = a.left.states.max(a.right.states);
    a.left_classes = metric::classes(rng, most, kinds);
    a.right_classes = a.left_classes[..a.right.states].to_vec();
    a.left_classes.truncate(a.left.states);
    if a.right.states > 0 && rng.once_in(4) {
        let i = rng.below(a.right.states);
        a.right_classes[i] = rng.pick(&[0, 1, u32::MAX]);
    }
}

/// The weights of a state's edges to others, added in order.
fn exit(m: &ModelArgs, s: usize) -> f64 {
    let c = &m.columns;
    let edges = c.offsets[s] as usize..c.offsets[s + 1] as usize;
    let others = edges.filter(|&e| c.edge_targets[e] as usize != s);
    others.map(|e| c.edge_weights[e]).sum()
}

/// The factor between the exit rates of two states, or the next number to it; 1 where there is none up to 2^20.
fn factor(rng: &mut Rng, a: &RelationArgs) -> f64 {
    let one = |rng: &mut Rng, m: &ModelArgs| match m.states {
        0 => 1.0,
        n => exit(m, rng.below(n)),
    };
    let (x, y) = (one(rng, &a.left), one(rng, &a.right));
    let factor = rng.pick(&[x / y, y / x]);
    let near = rng.pick(&[factor, factor.next_up(), factor.next_down()]);
    if (1.0..=1_048_576.0).contains(&near) {
        near
    } else {
        1.0
    }
}

/// Tolerances that are accepted, many of them small or at a limit.
pub fn tolerances(rng: &mut Rng, a: &mut RelationArgs) {
    a.epsilon = match rng.below(6) {
        0 => rng.pick(&EPSILONS[..GOOD_EPSILONS]),
        1 => 0.1f64.powi(rng.below(14) as i32),
        2 => 0.0,
        _ => rng.unit() * 0.3,
    };
    a.rho = match rng.below(6) {
        0 => factor(rng, a),
        1 => rng.pick(&RHOS[..GOOD_RHOS]),
        2 => 1.0 + rng.unit() * 0.2,
        _ => rng.pick(&[1.0, 1.2, 2.0, 1_048_576.0]),
    };
}

/// Initial states, near the start as a rule.
fn initials(rng: &mut Rng, a: &mut RelationArgs) {
    for m in [&mut a.left, &mut a.right] {
        let most = if rng.once_in(2) { 1 } else { m.states };
        m.initial = (m.states > 0).then(|| rng.below(most.min(m.states)) as u32);
    }
}

/// A model and a slightly changed copy, with so many kinds of classes.
pub fn copies(rng: &mut Rng, size: Size, kinds: usize) -> RelationArgs {
    let (left, right) = metric::pair(rng, size);
    let mut a = between(&left, &right);
    some_classes(rng, &mut a, kinds);
    a
}

/// Two models that have nothing to do with each other, weights of all sizes, empty ones too.
fn strangers(rng: &mut Rng) -> RelationArgs {
    let size = |rng: &mut Rng| Size {
        states: rng.below(6),
        ..build::small(rng)
    };
    let (first, second) = (size(rng), size(rng));
    let (left, right) = (build::good(rng, first), build::good(rng, second));
    let mut a = between(&left, &right);
    let kinds = 1 + rng.below(2);
    some_classes(rng, &mut a, kinds);
    a
}

/// Good arguments of few states.
pub fn good(rng: &mut Rng) -> RelationArgs {
    let mut a = match rng.below(8) {
        0 | 1 => {
            let n = 1 + rng.below(6);
            cascade(rng, n)
        }
        2 => return at_the_limit(rng),
        3 | 4 => strangers(rng),
        _ => {
            let size = Size {
                states: 1 + rng.below(7),
                given: rng.below(22),
                labels: 1 + rng.below(3),
                targets: 1 + rng.below(5),
            };
            let kinds = 1 + rng.below(3);
            copies(rng, size, kinds)
        }
    };
    tolerances(rng, &mut a);
    initials(rng, &mut a);
    a
}

/// A state of 29 to 31 targets on each side.
pub fn stars(rng: &mut Rng) -> RelationArgs {
    let targets = 29 + rng.below(3);
    let left = model::star_model(rng, targets);
    let mut right = left.clone();
    for weight in &mut right.columns.edge_weights {
        *weight *= rng.pick(&[1.0, 1.0, 1.01, 0.98]);
    }
    let mut a = of_models(left, right);
    let kinds = 1 + rng.below(4);
    some_classes(rng, &mut a, kinds);
    tolerances(rng, &mut a);
    a
}

/// A state on each side that jumps to 6 to 31 others. Their exit rates rise by steps, those of the right between those of
/// the left, so that each is close in rate to its neighbours alone: flow has to be taken back along many of them.
pub fn zigzags(rng: &mut Rng) -> RelationArgs {
    let targets = 6 + rng.below(26);
    let mut side = |half: f64| {
        let rates: Vec<f64> = (0..targets).map(|_| rng.unit() + 0.01).collect();
        let total: f64 = rates.iter().sum();
        let jumps = (2..).zip(&rates).map(|(t, x)| (0, 7, t, x / total));
        let leaves = (2..).zip(0..targets).map(|(t, i)| {
            let exit = (0.05 * (2.0 * i as f64 + half)).exp();
            (t, 7, 1, exit)
        });
        let list: Vec<Transition> = jumps.chain(leaves).collect();
        from_transitions(targets + 2, Some(0), &list)
    };
    let (left, right) = (side(0.0), side(1.0));
    let mut a = between(&left, &right);
    let classes = [vec![1, 9], vec![0; targets]].concat();
    (a.left_classes, a.right_classes) = (classes.clone(), classes);
    a.epsilon = rng.unit() * 0.6;
    a.rho = (0.05 * (1.2 + 1.5 * rng.unit())).exp();
    a
}

/// A model of so many states a side and a changed copy, or a long line.
pub fn large(rng: &mut Rng, states: usize, kinds: usize) -> RelationArgs {
    let mut a = match rng.below(4) {
        0 if states <= 60 => cascade(rng, states.min(24)),
        _ => {
            let size = Size {
                states,
                given: rng
                    .pick(&[states, 2 * states, 4 * states, 30 * states])
                    .min(4_096),
                labels: 1 + rng.below(3),
                targets: 1 + rng.below(31),
            };
            copies(rng, size, kinds)
        }
    };
    tolerances(rng, &mut a);
    if !rng.once_in(4) {
        a.rho = rng.pick(&[1.5, 4.0, 1_048_576.0]);
    }
    a
}

/// Models without edges of so many states together, with the bytes for so many.
pub fn bare(rng: &mut Rng, total: usize, room: usize) -> RelationArgs {
    let left = rng.pick(&[1, 2, total / 2, MOST]).min(total);
    let mut a = of_models(without_edges(left), without_edges(total - left));
    a.relation = pattern(needed(room));
    number_classes(&mut a);
    a
}

/// Good or damaged: one change in three that is harmless, up to two faults, and what [`model::damage`] does.
pub fn random(rng: &mut Rng, mut a: RelationArgs) -> RelationArgs {
    if rng.once_in(3) {
        rng.pick(HARMLESS).1(rng, &mut a);
    }
    for _ in 0..rng.pick(&[0, 0, 1, 1, 2]) {
        if intact(&a) {
            rng.pick(FAULTS).2(rng, &mut a);
        }
    }
    if rng.once_in(6) {
        let m = if rng.once_in(2) {
            &mut a.left
        } else {
            &mut a.right
        };
        model::damage(rng, m);
    }
    a
}

/// All pairs of models of two states, one edge from each to the other and few weights, with classes and tolerances.
pub fn short(f: &mut dyn FnMut(RelationArgs)) {
    const WEIGHTS: [f64; 3] = [0.0, 0.1, 0.3];
    const RHO: [f64; 4] = [1.0, 2.9999999999999996, 3.0, 4.0];
    all_digits(&[3, 3, 2, 3, 3, 2, 2, 4], &mut |d| {
        let model = |d: &[usize]| {
            let list = [(0, 7, 1, WEIGHTS[d[0]]), (1, 7, 0, WEIGHTS[d[1]])];
            from_transitions(2, Some(0), &list)
        };
        let mut a = between(&model(&d[..2]), &model(&d[3..5]));
        a.left_classes[1] = d[2] as u32;
        a.right_classes[1] = d[5] as u32;
        a.epsilon = [0.0, 1.0][d[6]];
        a.rho = RHO[d[7]];
        f(a);
    });
}

/// All pairs of fans of two targets and few rates, of one class or of classes of their own, with tolerances.
pub fn short_fans(f: &mut dyn FnMut(RelationArgs)) {
    const RATES: [f64; 4] = [0.0, 1.0, 2.0, 3.0];
    const EPSILON: [f64; 5] = [0.0, 0.2, 0.25, 0.5, 1.0];
    all_digits(&[4, 4, 4, 4, 2, 5, 2], &mut |d| {
        let fan = |d: &[usize]| fan(&[RATES[d[0]], RATES[d[1]]]);
        let mut a = between(&fan(&d[..2]), &fan(&d[2..4]));
        if d[4] == 1 {
            number_classes(&mut a);
        }
        a.epsilon = EPSILON[d[5]];
        a.rho = [1.0, 2.0][d[6]];
        f(a);
    });
}

/// Everything that all three entries are compared on.
pub fn relations(rng: &mut Rng, scale: usize, f: &mut dyn FnMut(RelationArgs)) {
    short(f);
    short_fans(f);
    for (_, _, change) in FAULTS {
        for _ in 0..120 * scale {
            let mut a = good_intact(rng);
            change(rng, &mut a);
            f(a);
        }
    }
    for i in 0..10_000 * scale {
        let base = match i % 200 {
            0 => stars(rng),
            _ => good(rng),
        };
        f(random(rng, base));
    }
    for _ in 0..3_000 * scale {
        f(at_a_step(rng));
    }
    for _ in 0..2_000 * scale {
        f(zigzags(rng));
    }
    for (total, room) in [
        (2_000, 2_000),
        (2_001, 2_001),
        (2_001, 2_000),
        (4_000, 4_000),
    ] {
        f(bare(rng, total, room));
    }
}

/// Everything that only `epsdelta` is compared on.
pub fn runs(rng: &mut Rng, scale: usize, f: &mut dyn FnMut(RelationArgs)) {
    for _ in 0..400 * scale {
        let states = 8 + rng.below(53);
        let kinds = 1 + rng.below(8);
        f(large(rng, states, kinds));
    }
    for _ in 0..6 * scale {
        f(large(rng, 300, 12));
        f(large(rng, 1_000, 60));
    }
}

/// Good arguments that every fault can be made in.
pub fn good_intact(rng: &mut Rng) -> RelationArgs {
    loop {
        let a = good(rng);
        if intact(&a) {
            return a;
        }
    }
}

#[cfg(test)]
mod tests {
    use super::*;
    use crate::answers::Oracle;
    use crate::args::RunArgs;
    use crate::generate::related::askings;
    use crate::relation::relation;
    use crate::rows::{ROWS, floors};
    use crate::text::Value;
    use std::collections::BTreeMap;

    /// Answers by entry and refusal number.
    type Counts = BTreeMap<(&'static str, u32), u64>;

    fn count(counts: &mut Counts, a: &impl Oracle) {
        for field in a.oracle() {
            if let Value::Answer(refusal, _) = field.value {
                *counts.entry((field.name, refusal)).or_default() += 1;
            }
        }
    }

    #[test]
    fn floors_are_reached() {
        let rng = &mut Rng::new(1);
        let mut counts = Counts::new();
        relations(rng, 1, &mut |a| count(&mut counts, &a));
        runs(rng, 1, &mut |a| count(&mut counts, &RunArgs(a)));
        askings(rng, 1, &mut |a| count(&mut counts, &a));
        for name in ["epsdelta", "related", "epsdelta_bisimilar", "min_epsilon"] {
            let row = ROWS.iter().find(|row| row.0 == name).expect("a row").1;
            let count = |r: &u32| counts.get(&(name, *r)).copied().unwrap_or(0);
            let (least, each) = floors(name);
            let total = count(&0) + row.iter().map(count).sum::<u64>();
            let other = counts.keys().filter(|key| key.0 == name).count();
            assert!(total >= least && count(&0) >= each, "{name}: {counts:?}");
            assert!(row.iter().all(|r| count(r) >= each), "{name}: {counts:?}");
            assert_eq!(other, row.len() + 1, "{name}: {counts:?}");
        }
    }

    /// Sweeps, and pairs struck: at ε = 1 none is.
    fn sweeps_and_strikes(a: &RelationArgs) -> (usize, usize) {
        let marks = RelationArgs {
            epsilon: 1.0,
            ..a.clone()
        };
        let run = relation(a);
        (run.sweeps, (relation(&marks).len() - run.len()) / 2)
    }

    /// How many of the runs have over 0 strikes, and over 1, 2, 3 and 4 sweeps.
    fn tally(runs: impl Iterator<Item = RelationArgs>) -> [usize; 5] {
        let mut over = [0; 5];
        for a in runs {
            let (sweeps, strikes) = sweeps_and_strikes(&a);
            assert_eq!(strikes > 0, sweeps > 1);
            over[0] += usize::from(strikes > 0);
            for (least, n) in over[1..].iter_mut().enumerate() {
                *n += usize::from(sweeps > least + 1);
            }
        }
        over
    }

    /// Of 1,000 short inputs, and of 100 large ones.
    #[test]
    fn strikes_cascade() {
        let rng = &mut Rng::new(2);
        let short = tally((0..1_000).map(|_| good(rng)));
        let large = tally((0..100).map(|i| large(rng, 8 + i / 2, 1 + i % 8)));
        for (over, least) in [
            (short, [250, 250, 80, 35, 15]),
            (large, [50, 50, 30, 15, 8]),
        ] {
            assert!(
                over.iter().zip(least).all(|(n, least)| *n >= least),
                "{over:?}"
            );
        }
    }
}

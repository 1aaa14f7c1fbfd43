//! Arguments of the relation with a tolerance at or next to a number at which a pair is taken in.

use super::build::Size;
use super::relation::{between, copies, fan, number_classes, tolerances};
use super::{Rng, metric};
use crate::args::RelationArgs;
use crate::relation::relation;

/// The part of the jumps that two fans of classes of their own have in common.
fn common(left: &[f64], right: &[f64]) -> f64 {
    let (total, other): (f64, f64) = (left.iter().sum(), right.iter().sum());
    let both = left.iter().zip(right);
    both.map(|(l, r)| (l / total).min(r / other)).sum()
}

/// Two fans, with an ε at or next to the least at which they are alike.
pub fn at_the_limit(rng: &mut Rng) -> RelationArgs {
    let targets = 2 + rng.below(4);
    let mut rates = || -> Vec<f64> {
        let mut rate = || match rng.once_in(2) {
            true => 1.0 + rng.below(4) as f64,
            false => rng.unit() + 0.1,
        };
        (0..targets).map(|_| rate()).collect()
    };
    let (left, right) = (rates(), rates());
    let mut a = between(&fan(&left), &fan(&right));
    number_classes(&mut a);
    let least = 1.0 - common(&left, &right);
    let about = rng.pick(&[least, least - 1e-9, least + 1e-9]);
    let step = rng.pick(&[0.0, 1.0, -1.0, 2.0, -2.0, 5.0, -5.0]) * f64::EPSILON / 8.0;
    a.epsilon = (about + step).max(0.0);
    a.rho = rng.pick(&[1.0, 8.0, 1_048_576.0]);
    a
}

/// The least number above `low` and up to `high` at which `holds` turns true, if it does so once.
fn step(low: f64, high: f64, holds: impl Fn(f64) -> bool) -> f64 {
    let (mut low, mut high) = (low.to_bits(), high.to_bits());
    while high - low > 1 {
        let middle = low.midpoint(high);
        if holds(f64::from_bits(middle)) {
            high = middle;
        } else {
            low = middle;
        }
    }
    f64::from_bits(high)
}

/// Of the pairs of the second relation that the first has not, one.
fn pair_between(rng: &mut Rng, few: &[Vec<bool>], many: &[Vec<bool>]) -> Option<(usize, usize)> {
    let states = 0..few.len();
    let pairs = states.flat_map(|s| (0..s).map(move |t| (t, s)));
    let list: Vec<_> = pairs.filter(|&(s, t)| many[s][t] && !few[s][t]).collect();
    (!list.is_empty()).then(|| rng.pick(&list))
}

/// Two fans of up to 31 targets of few classes, so that their flow is the sum of many pushes.
fn wide_fans(rng: &mut Rng) -> RelationArgs {
    let rates = |rng: &mut Rng| -> Vec<f64> {
        let targets = 2 + rng.below(30);
        (0..targets).map(|_| rng.unit() + 0.05).collect()
    };
    let (left, right) = (rates(rng), rates(rng));
    let mut a = between(&fan(&left), &fan(&right));
    let kinds = 2 + rng.below(5);
    a.left_classes = metric::classes(rng, left.len() + 1, kinds);
    a.right_classes = metric::classes(rng, right.len() + 1, kinds);
    (a.left_classes[0], a.right_classes[0]) = (9, 9);
    a
}

/// A model of a few states with several edges each, and a changed copy.
fn dense(rng: &mut Rng) -> RelationArgs {
    let states = 2 + rng.below(5);
    let size = Size {
        states,
        given: 4 * states + rng.below(20),
        labels: 1 + rng.below(4),
        targets: 2 + rng.below(6),
    };
    copies(rng, size, 1 + states % 2)
}

/// A tolerance, ε or ρ, at the least number at which the Rust takes a pair in, or just below it, so that the order of
/// each sum shows.
pub fn at_a_step(rng: &mut Rng) -> RelationArgs {
    let mut a = match rng.once_in(3) {
        true => dense(rng),
        false => wide_fans(rng),
    };
    tolerances(rng, &mut a);
    let of_epsilon = !rng.once_in(3);
    let (low, high) = if of_epsilon {
        (0.0, 1.0)
    } else {
        (1.0, 1_048_576.0)
    };
    let with = |a: &RelationArgs, x: f64| match of_epsilon {
        true => RelationArgs {
            epsilon: x,
            ..a.clone()
        },
        false => RelationArgs {
            rho: x,
            ..a.clone()
        },
    };
    let rows = |x: f64| relation(&with(&a, x)).related;
    let Some((s, t)) = pair_between(rng, &rows(low), &rows(high)) else {
        return a;
    };
    let least = step(low, high, |x| rows(x)[s][t]);
    with(&a, rng.pick(&[least, least.next_down()]))
}

//! Inputs of `transport`: masses that balance, with zeros and ties, totals about as far apart as they may be, runs that
//! meet the cap of rounds, and a fault for each clause of 7, 15 and 16.

use super::faults::{BAD_COSTS, GOOD_COSTS};
use super::metric::masses;
use super::{GREATEST_WEIGHT, Rng, all_digits, place, shorten};
use crate::args::{TransportArgs, fill};

/// Masses and costs with room for the plan and no more, filled with values that no plan has.
pub fn lent(a: Vec<f64>, b: Vec<f64>, costs: Vec<f64>) -> TransportArgs {
    let cells = a.len() * b.len();
    TransportArgs {
        a,
        b,
        costs,
        plan_rows: fill(cells),
        plan_columns: (7_000..).take(cells).collect(),
        plan_masses: (0..cells).map(|k| -1.0 - k as f64).collect(),
    }
}

/// So many masses that add up to `units` exactly, zeros and equal ones among them.
fn whole_masses(rng: &mut Rng, count: usize, units: usize) -> Vec<f64> {
    let mut masses = vec![0.0; count];
    for _ in 0..units {
        masses[rng.below(count)] += 1.0;
    }
    masses
}

/// One mass takes almost all.
fn lopsided(rng: &mut Rng, count: usize) -> Vec<f64> {
    let mut masses = vec![2f64.powi(-8); count];
    let i = rng.below(count);
    masses[i] = 1.0 - 2f64.powi(-8) * (count - 1) as f64;
    masses
}

/// Masses on two sides, at least one a side, whose totals are equal but for rounding.
fn balanced(rng: &mut Rng, m: usize, n: usize) -> (Vec<f64>, Vec<f64>) {
    let (mut a, mut b) = match rng.below(6) {
        0..2 => (masses(rng, m), masses(rng, n)),
        2 => (lopsided(rng, m), lopsided(rng, n)),
        3 => (lopsided(rng, m), masses(rng, n)),
        _ => {
            let units = rng.pick(&[1, 2, 8, 32]);
            (whole_masses(rng, m, units), whole_masses(rng, n, units))
        }
    };
    let scale = match rng.below(8) {
        0 => 1e-12,
        1 => 2f64.powi(-30),
        2 => 2f64.powi(-3),
        3 => 1_000.0,
        4 => GREATEST_WEIGHT / 32.0,
        _ => 1.0,
    };
    a.iter_mut().chain(&mut b).for_each(|x| *x *= scale);
    (a, b)
}

/// Costs of m × n pairs: random, few values, ties, distances on a line, about 1e-15 apart, of very different size.
fn costs(rng: &mut Rng, m: usize, n: usize) -> Vec<f64> {
    let style = rng.below(8);
    let same = rng.pick(&[0.0, 0.1, 1.0, GREATEST_WEIGHT]);
    let mut cost = |k: usize| match style {
        0 if rng.once_in(4) => 0.0,
        0 | 1 => rng.unit(),
        2 => same,
        3 => rng.below(3) as f64,
        4 => rng.pick(GOOD_COSTS),
        5 => (k / n).abs_diff(k % n) as f64 * 0.1,
        6 => 1.0 + rng.below(6) as f64 * 5e-16,
        _ => 2f64.powi(rng.below(81) as i32 - 40),
    };
    (0..m * n).map(&mut cost).collect()
}

/// An input that is accepted, of m and n masses, at least one a side.
pub fn good(rng: &mut Rng, m: usize, n: usize) -> TransportArgs {
    let (a, b) = balanced(rng, m, n);
    let costs = costs(rng, m, n);
    lent(a, b, costs)
}

/// A way to change an input of at least one mass a side; harmless ones leave it accepted.
pub type Change = fn(&mut Rng, &mut TransportArgs);

fn bad_mass(rng: &mut Rng, masses: &mut [f64]) {
    let i = place(rng, masses.len());
    masses[i] = rng.pick(BAD_COSTS);
}

/// One more mass than 32 a side, with its cells.
fn crowd(rng: &mut Rng, t: &mut TransportArgs) {
    let (mut m, mut n) = (t.a.len(), t.b.len());
    match rng.below(3) {
        0 => m = 33 + rng.below(3),
        1 => n = 33 + rng.below(3),
        _ => (m, n) = (33, 33),
    }
    *t = good(rng, m, n);
}

/// Changes after which an input is refused with 7 or 15.
pub const FAULTS: &[(&str, Change)] = &[
    ("costs short", |rng, t| shorten(rng, &mut t.costs)),
    ("rows short", |rng, t| shorten(rng, &mut t.plan_rows)),
    ("columns short", |rng, t| shorten(rng, &mut t.plan_columns)),
    ("masses short", |rng, t| shorten(rng, &mut t.plan_masses)),
    ("mass of a", |rng, t| bad_mass(rng, &mut t.a)),
    ("mass of b", |rng, t| bad_mass(rng, &mut t.b)),
    ("cost", |rng, t| bad_mass(rng, &mut t.costs)),
    ("over 32 masses", crowd),
];

/// Totals about as far apart as they may be, or far apart.
pub fn totals_apart(rng: &mut Rng, t: &mut TransportArgs) {
    let total: f64 = t.a.iter().sum();
    let allowed = 1e-9 * total.max(1.0);
    let part = rng.pick(&[0.5, 1.0 - 1e-7, 1.0, 1.0, 1.0, 1.0 + 1e-7, 2.0, 1e9]);
    let side = if rng.once_in(2) { &mut t.a } else { &mut t.b };
    let i = place(rng, side.len());
    let x = match rng.once_in(2) {
        true => side[i] + allowed * part,
        false => (side[i] - allowed * part).abs(),
    };
    side[i] = match rng.below(3) {
        0 => x.next_up(),
        1 if x > 0.0 => x.next_down(),
        _ => x,
    };
}

/// Changes after which a balanced input is accepted.
pub const HARMLESS: &[(&str, Change)] = &[
    ("costs past the cells", |rng, t| {
        t.costs.push(rng.pick(BAD_COSTS))
    }),
    ("rows past the cells", |_, t| t.plan_rows.extend([1, 2])),
    ("columns past the cells", |_, t| t.plan_columns.push(3)),
    ("masses past the cells", |_, t| {
        t.plan_masses.extend([f64::NAN, 0.5])
    }),
    ("zeros negative", |_, t| {
        let masses = t.a.iter_mut().chain(&mut t.b).chain(&mut t.costs);
        masses.filter(|x| **x == 0.0).for_each(|x| *x = -0.0);
    }),
    ("a mass of zero more", |_, t| {
        if t.a.len() < 32 {
            *t = lent([&t.a[..], &[0.0]].concat(), t.b.clone(), t.costs.clone());
            t.costs.resize(t.a.len() * t.b.len(), 0.5);
        }
    }),
];

/// With a harmless change, a fault, or totals about the limit.
pub fn random(rng: &mut Rng, mut t: TransportArgs) -> TransportArgs {
    if rng.once_in(3) {
        rng.pick(HARMLESS).1(rng, &mut t);
    }
    if rng.once_in(5) {
        totals_apart(rng, &mut t);
    }
    if rng.once_in(6) {
        rng.pick(FAULTS).1(rng, &mut t);
    }
    t
}

/// Up to 6 masses a side.
pub fn small(rng: &mut Rng) -> TransportArgs {
    let (m, n) = (1 + rng.below(6), 1 + rng.below(6));
    good(rng, m, n)
}

/// Sizes at the limit, and about 8 a side, where work space changes.
pub fn large(rng: &mut Rng) -> TransportArgs {
    let sizes = [8, 9, 12, 31, 32, 32];
    let (m, n) = match rng.below(4) {
        0 => (1, rng.pick(&sizes)),
        1 => (rng.pick(&sizes), 1),
        _ => (rng.pick(&sizes), rng.pick(&sizes)),
    };
    good(rng, m, n)
}

/// n masses a side, at least 2, whose shortest paths are so many that the cap of rounds is met from 9 a side on. What it
/// costs to move mass from a place to the same place is the greatest cost, or 0 for the first place if `corner` is set.
pub fn many_rounds(n: usize, corner: bool) -> TransportArgs {
    let doubled = |i: usize| 5.0 * 2f64.powi(i as i32 - 2);
    let masses = |first: [f64; 2]| [&first[..], &(2..n).map(doubled).collect::<Vec<_>>()].concat();
    let cost = |k: usize| match (k / n, k % n) {
        (0, 0) if corner => 0.0,
        (i, j) if i == j => GREATEST_WEIGHT,
        (i, j) => 2f64.powi(i.max(j) as i32 + 1) - 1.0,
    };
    lent(
        masses([1.0, 3.0]),
        masses([2.0, 2.0]),
        (0..n * n).map(cost).collect(),
    )
}

/// Up to two masses a side, and their costs, over few values.
pub fn short(f: &mut dyn FnMut(TransportArgs)) {
    const MASSES: [f64; 4] = [0.0, 1e-12, 0.5, 1.0];
    const COSTS: [f64; 3] = [0.0, 1.0, 3.0];
    all_digits(&[3, 3], &mut |size| {
        let (m, n) = (size[0], size[1]);
        let bases = [vec![4; m + n], vec![3; m * n]].concat();
        all_digits(&bases, &mut |d| {
            let masses: Vec<f64> = d[..m + n].iter().map(|&i| MASSES[i]).collect();
            let costs = d[m + n..].iter().map(|&i| COSTS[i]).collect();
            f(lent(masses[..m].to_vec(), masses[m..].to_vec(), costs));
        });
    });
}

/// Values at the limits of masses and costs, good and bad.
pub fn limits() -> Vec<f64> {
    let good = [1e-12, 1e-12f64.next_up(), 1e-9, 1e-9f64.next_up(), 1.0];
    [&good[..], GOOD_COSTS, BAD_COSTS].concat()
}

/// One mass a side and one cost, each at a limit; two masses on one side; no mass on a side.
pub fn short_limits(f: &mut dyn FnMut(TransportArgs)) {
    let limits = limits();
    let n = limits.len();
    all_digits(&[n, n, n], &mut |d| {
        let [x, y, z] = [0, 1, 2].map(|i| limits[d[i]]);
        f(lent(vec![x], vec![y], vec![z]));
        f(lent(vec![x, y], vec![z], vec![1.0, 0.5]));
        f(lent(vec![x], vec![y, z], vec![1.0, 0.5]));
        f(lent(vec![], vec![x, y], vec![z]));
        f(lent(vec![x, y], vec![], vec![z]));
    });
}

/// All sizes about 32 a side, of masses of zero.
pub fn sizes(f: &mut dyn FnMut(TransportArgs)) {
    let counts = [0, 1, 2, 31, 32, 33, 34];
    all_digits(&[7, 7, 2], &mut |d| {
        let (m, n) = (counts[d[0]], counts[d[1]]);
        let mut t = lent(vec![0.0; m], vec![0.0; n], vec![1.0; m * n]);
        t.plan_masses.truncate(m * n - d[2].min(m * n));
        f(t);
    });
}

/// Everything that `transport` is compared on.
pub fn transports(rng: &mut Rng, scale: usize, f: &mut dyn FnMut(TransportArgs)) {
    short(f);
    short_limits(f);
    sizes(f);
    all_digits(&[12, 2], &mut |d| f(many_rounds(d[0] + 2, d[1] == 1)));
    for i in 0..60_000 * scale {
        let base = match i % 40 {
            0 => large(rng),
            _ => small(rng),
        };
        f(random(rng, base));
    }
}

#[cfg(test)]
mod tests {
    use super::*;
    use crate::answers::Oracle;
    use crate::bisim_metric::flow::transport;
    use crate::refusals::transport_refusal;
    use crate::rows::{ROWS, floors};
    use crate::text::Value;
    use std::collections::BTreeMap;

    #[test]
    fn good_and_harmless_inputs_are_accepted_and_faults_refused() {
        let rng = &mut Rng::new(1);
        for i in 0..4_000 {
            let t = if i % 40 == 0 { large(rng) } else { small(rng) };
            assert_eq!(transport_refusal(&t), 0, "{t:?}");
            for (name, change) in HARMLESS {
                let mut t = t.clone();
                change(rng, &mut t);
                assert_eq!(transport_refusal(&t), 0, "{name}: {t:?}");
            }
            for (k, (name, change)) in FAULTS.iter().enumerate() {
                let mut t = t.clone();
                change(rng, &mut t);
                let number = if k < 4 { 7 } else { 15 };
                assert_eq!(transport_refusal(&t), number, "{name}: {t:?}");
            }
        }
    }

    #[test]
    fn floors_are_reached() {
        let mut counts: BTreeMap<u32, u64> = BTreeMap::new();
        transports(&mut Rng::new(1), 1, &mut |t| {
            let Value::Answer(refusal, _) = t.oracle().remove(0).value else {
                panic!("no answer");
            };
            *counts.entry(refusal).or_default() += 1;
        });
        let (least, each) = floors("transport");
        let row = ROWS.iter().find(|row| row.0 == "transport").expect("a row");
        let numbers: Vec<u32> = [&[0], row.1].concat();
        assert_eq!(counts.keys().copied().collect::<Vec<_>>(), numbers);
        assert!(counts.values().all(|n| *n >= each), "{counts:?}");
        assert!(counts.values().sum::<u64>() >= least, "{counts:?}");
    }

    /// A plan takes from no mass, and brings to none, more than there is.
    #[test]
    fn plans_keep_to_the_masses() {
        let rng = &mut Rng::new(2);
        for i in 0..2_000 {
            let t = if i % 40 == 0 { large(rng) } else { small(rng) };
            let (_, plan) = transport(&t.a, &t.b, &t.cost_rows());
            let (mut a, mut b) = (t.a.clone(), t.b.clone());
            for (i, j, mass) in plan {
                a[i] -= mass;
                b[j] -= mass;
            }
            let much = 1e-9 * t.a.iter().sum::<f64>().max(1.0);
            assert!(a.iter().chain(&b).all(|x| *x > -much), "{t:?}");
        }
    }

    /// Rounding makes a cycle of a path, or nothing is reached any more: mass stays behind.
    #[test]
    fn some_runs_break_off() {
        let rng = &mut Rng::new(1);
        let inputs = (0..20_000).map(|_| small(rng));
        let early = inputs.filter(|t| t.left_over() > 1.0).count();
        assert!(early >= 50, "{early} leave mass behind");
    }

    /// No rounding is at work here: all is whole. About a fifth of the mass stays behind with 9 masses a side.
    #[test]
    fn the_cap_of_rounds_is_met() {
        for corner in [false, true] {
            assert!(many_rounds(8, corner).left_over() == 0.0);
            for n in 9..14 {
                assert!(many_rounds(n, corner).left_over() > 1e8, "{n} {corner}");
            }
        }
        let nine = many_rounds(9, false);
        let (_, plan) = transport(&nine.a, &nine.b, &nine.cost_rows());
        assert_eq!(plan.iter().map(|cell| cell.2).sum::<f64>(), 515.0);
        assert_eq!(nine.a.iter().sum::<f64>(), 639.0);
    }
}

//! What docs/DIFFERENCES.md lists as findings, on the Rust side.

use oracle::bisim_metric::flow::transport;
use oracle::bisim_metric::kantorovich::{Chain, MetricOptions, distance};
use oracle::generate::capped::{GAMMA, LENGTH, LINES, chains};

/// The distance of line i to line j.
fn apart(a: &Chain, b: &Chain, i: usize, j: usize) -> f64 {
    let seen = |c: &Chain, i: usize, s: usize| c.observation[1 + i * LENGTH + s];
    let part = |s: usize| GAMMA.powi(s as i32) * (seen(a, i, s) - seen(b, j, s)).abs();
    (0..LENGTH).map(part).sum::<f64>() * (1.0 - GAMMA)
}

/// `transport` stops at its cap of rounds, so that a part of the mass is left out of the distance, and the error bound
/// is 0 all the same. What is left out would cost at least the least cost, since paths only grow longer.
#[test]
fn the_error_bound_does_not_bound() {
    let (a, b) = chains();
    let row = |i: usize| (0..LINES).map(|j| apart(&a, &b, i, j)).collect::<Vec<_>>();
    let costs: Vec<Vec<f64>> = (0..LINES).map(row).collect();
    let masses = |c: &Chain| c.rows[0].iter().map(|entry| entry.1).collect::<Vec<_>>();
    let (total, plan) = transport(&masses(&a), &masses(&b), &costs);
    let left_out = 1.0 - plan.iter().map(|cell| cell.2).sum::<f64>();
    let least = costs
        .iter()
        .flatten()
        .copied()
        .fold(f64::INFINITY, f64::min);

    let options = MetricOptions {
        tolerance: 1e-12,
        max_rounds: 200,
        top: 0,
    };
    let d = distance(&a, &b, GAMMA, options).expect("accepted");
    assert!((d.value - GAMMA * total).abs() < 1e-9);
    assert_eq!(d.error_bound, 0.0);
    assert!((d.value - 0.0759).abs() < 5e-5, "{}", d.value);
    assert!(GAMMA * left_out * least > 0.015, "{left_out} {least}");
}

/// Costs that differ by a few units of the last place: the run breaks off with half of the mass moved.
#[test]
fn half_stays_unmoved() {
    let costs = [vec![1.0 + 5.0 * 2f64.powi(-52), 1.0], vec![1.0, 1.0]];
    let (_, plan) = transport(&[0.5, 0.5], &[0.5, 0.5], &costs);
    let moved: f64 = plan.iter().map(|cell| cell.2).sum();
    assert!((moved - 0.5).abs() < 1e-9, "{moved}");
}

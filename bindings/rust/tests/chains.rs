//! Chains through `sys`.

mod common;

use common::{BEFORE_COUNT, BEFORE_REAL, fan, refused, sample, short, short_mut, still, view};
use tanqesha::sys::{self, ChainView};
use tanqesha::{Chain, Columns, StateId};

fn common_rate(left: &Columns, right: &Columns) -> (u32, f64) {
    let mut rate = BEFORE_REAL;
    (sys::common_rate(&view(left), &view(right), &mut rate), rate)
}

#[test]
fn the_common_rate() {
    assert_eq!(common_rate(&fan(&[2.0]), &fan(&[4.0])), (0, 4.0));
    // 3.5 + 1 of state 0; a self-loop is no exit
    assert_eq!(common_rate(&sample(), &fan(&[4.0])), (0, 4.5));
    assert_eq!(common_rate(&still(0), &still(3)), (0, 1.0));
    for (number, model) in refused() {
        assert_eq!(common_rate(&model, &sample()), (number, BEFORE_REAL));
        assert_eq!(common_rate(&sample(), &model), (number, BEFORE_REAL));
    }
}

/// Lent lists for a chain of so many states and entries, filled.
fn room(states: usize, entries: usize) -> Chain {
    Chain {
        states: 0,
        entries: BEFORE_COUNT,
        initial: StateId(0),
        offsets: vec![9_001; states + 1],
        targets: vec![9_002; entries],
        probabilities: vec![-9.5; entries],
        observations: vec![-8.5; states],
    }
}

/// `uniformise`, slice `cut` one too short.
fn uniformise(m: &Columns, rate: f64, seen: &[f64], c: &mut Chain, cut: usize) -> u32 {
    sys::uniformise(
        &view(m),
        rate,
        short(seen, cut == 0),
        short_mut(&mut c.offsets, cut == 1),
        short_mut(&mut c.targets, cut == 2),
        short_mut(&mut c.probabilities, cut == 3),
        short_mut(&mut c.observations, cut == 4),
        &mut c.entries,
    )
}

const WHOLE: usize = usize::MAX;

#[test]
fn a_model_is_made_a_chain() {
    let mut c = room(3, 4);
    assert_eq!(
        uniformise(&fan(&[2.0]), 4.0, &[1.0, 3.0, f64::NAN], &mut c, WHOLE),
        0
    );
    assert_eq!(c.entries, 3);
    assert_eq!(c.offsets, [0, 2, 3, 9_001]);
    assert_eq!(c.targets, [0, 1, 1, 9_002]);
    assert_eq!(c.probabilities, [0.5, 0.5, 1.0, -9.5]);
    assert_eq!(c.observations, [1.0, 3.0, -8.5]);
    // at the exit rate nothing stays; below it the row adds up to more than 1
    for (rate, probability) in [(2.0, 1.0), (1.0, 2.0)] {
        let mut c = room(2, 3);
        assert_eq!(uniformise(&fan(&[2.0]), rate, &[0.0; 2], &mut c, WHOLE), 0);
        assert_eq!((c.entries, c.probabilities[0]), (2, probability));
    }
    // the rates and observations at their limits
    for rate in [2f64.powi(-40), 2f64.powi(64)] {
        let seen = [-(2f64.powi(40)), 2f64.powi(40)];
        assert_eq!(
            uniformise(&fan(&[2.0]), rate, &seen, &mut room(2, 3), WHOLE),
            0
        );
    }
}

#[test]
fn chains_are_not_made() {
    let check = |number, m: &Columns, rate, seen: &[f64], lent: &Chain, cut| {
        let mut c = lent.clone();
        assert_eq!(uniformise(m, rate, seen, &mut c, cut), number);
        assert_eq!(&c, lent);
    };
    let (model, seen, lent) = (fan(&[2.0]), [1.0, 3.0], room(2, 3));
    for cut in 0..5 {
        check(7, &model, 4.0, &seen, &lent, cut);
    }
    let mut nothing = room(0, 0);
    nothing.offsets.clear();
    check(7, &model, 4.0, &[], &nothing, WHOLE);
    let mut without = model.clone();
    without.initial = None;
    check(8, &without, f64::NAN, &seen, &lent, WHOLE);
    for rate in [0.0, 2f64.powi(-41), 2f64.powi(65), f64::NAN, -4.0] {
        check(11, &model, rate, &[f64::NAN; 2], &lent, WHOLE);
    }
    for bad in [f64::NAN, 2f64.powi(41), -(2f64.powi(41)), f64::INFINITY] {
        check(12, &model, 4.0, &[1.0, bad], &lent, WHOLE);
    }
    for (number, model) in refused() {
        check(number, &model, 4.0, &seen, &lent, WHOLE);
    }
}

/// Two states that stay or move by halves, and one that stays.
fn chain(observations: [f64; 2]) -> Chain {
    Chain {
        states: 2,
        entries: 3,
        initial: StateId(0),
        offsets: vec![0, 2, 3],
        targets: vec![0, 1, 1],
        probabilities: vec![0.5, 0.5, 1.0],
        observations: observations.to_vec(),
    }
}

/// A chain without its observations, list `cut` one too short.
fn lists(c: &Chain, cut: usize) -> ChainView<'_> {
    ChainView {
        states: c.states,
        entries: c.entries,
        initial: c.initial.0,
        offsets: short(&c.offsets, cut == 0),
        targets: short(&c.targets, cut == 1),
        probabilities: short(&c.probabilities, cut == 2),
    }
}

/// `normalise`: the number, by how much the observations differ, and the observations then.
fn normalise(left: &Chain, right: &Chain, cut: usize) -> (u32, f64, [Vec<f64>; 2]) {
    let mut seen = [left.observations.clone(), right.observations.clone()];
    let [left_seen, right_seen] = &mut seen;
    let mut scale = BEFORE_REAL;
    let number = sys::normalise(
        &lists(left, cut),
        short_mut(left_seen, cut == 3),
        &lists(right, cut.wrapping_sub(4)),
        short_mut(right_seen, cut == 7),
        &mut scale,
    );
    (number, scale, seen)
}

#[test]
fn observations_are_scaled_together() {
    let (number, scale, seen) = normalise(&chain([2.0, 4.0]), &chain([3.0, 6.0]), WHOLE);
    assert_eq!(
        (number, scale, seen),
        (0, 4.0, [vec![0.0, 0.5], vec![0.25, 1.0]])
    );
    // all the same; what stands behind is kept
    let mut right = chain([7.0, 7.0]);
    right.observations.push(f64::INFINITY);
    let (number, scale, seen) = normalise(&chain([7.0, 7.0]), &right, WHOLE);
    assert_eq!((number, scale), (0, 0.0));
    assert_eq!(seen, [vec![0.0, 0.0], vec![0.0, 0.0, f64::INFINITY]]);
}

type Damage = fn(&mut Chain);

#[test]
fn observations_are_not_scaled() {
    let good = chain([2.0, 4.0]);
    let check = |number, left: &Chain, right: &Chain, cut| {
        let (got, scale, seen) = normalise(left, right, cut);
        assert_eq!((got, scale), (number, BEFORE_REAL));
        let before = [&left.observations, &right.observations];
        assert_eq!(format!("{seen:?}"), format!("{before:?}"));
    };
    for (cut, number) in [
        (0, 4),
        (1, 4),
        (2, 4),
        (3, 7),
        (4, 4),
        (5, 4),
        (6, 4),
        (7, 7),
    ] {
        check(number, &good, &good, cut);
    }
    let damages: [(u32, Damage); 16] = [
        (4, |c| c.initial = StateId(2)),
        (4, |c| {
            *c = Chain {
                states: 0,
                entries: 0,
                offsets: vec![0],
                ..c.clone()
            }
        }),
        (4, |c| {
            *c = Chain {
                offsets: vec![],
                targets: vec![],
                probabilities: vec![],
                ..c.clone()
            }
        }),
        (4, |c| c.offsets[0] = 1),
        (4, |c| c.offsets[1] = 4),
        (4, |c| c.offsets[2] = 2),
        (4, |c| c.targets[2] = 2),
        (4, |c| c.entries = usize::MAX),
        (7, |c| c.observations.clear()),
        (12, |c| c.observations[1] = f64::NAN),
        (12, |c| c.observations[1] = 2f64.powi(41)),
        (13, |c| c.targets.swap(0, 1)),
        (13, |c| c.probabilities[0] = 0.0),
        (13, |c| c.probabilities[2] = 1.0 + 1e-8),
        (13, |c| c.probabilities[0] = 0.25),
        (13, |c| (c.offsets[1], c.probabilities[2]) = (0, 1.0)),
    ];
    for (number, damage) in damages {
        let mut bad = good.clone();
        damage(&mut bad);
        check(number, &bad, &good, WHOLE);
        check(number, &good, &bad, WHOLE);
    }
    // a row of 32 entries passes, one of 33 does not; nor do 2,001 states
    let wide = |n: usize| Chain {
        states: n,
        entries: n * n,
        initial: StateId(0),
        offsets: (0..=n as u32).map(|s| s * n as u32).collect(),
        targets: (0..n as u32).cycle().take(n * n).collect(),
        probabilities: vec![1.0 / n as f64; n * n],
        observations: vec![0.5; n],
    };
    assert_eq!(normalise(&wide(32), &good, WHOLE).0, 0);
    check(13, &wide(33), &good, WHOLE);
    let long = |n: usize| Chain {
        states: n,
        entries: n,
        initial: StateId(0),
        offsets: (0..=n as u32).collect(),
        targets: (0..n as u32).collect(),
        probabilities: vec![1.0; n],
        observations: vec![0.5; n],
    };
    assert_eq!(normalise(&long(2_000), &good, WHOLE).0, 0);
    check(13, &good, &long(2_001), WHOLE);
}
